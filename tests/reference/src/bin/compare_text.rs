//! Compares the library's text reader with the reference's, on all short texts and on long random ones, each damaged at every position.
//! Without the library it only counts what the texts cover.

use reference::library::{self, ReadText};
use reference::options::{conclude, Options};
use reference::random::Random;
use reference::random_text::{random_text, ALPHABET};
use reference::text_tree;
use std::process::exit;

/// All texts up to this length over these letters. With 0 and 9, thresholds and counts reach their limits within nine bytes.
const LONGEST: usize = 9;
const LETTERS: [u8; 7] = *b"()# 09x";

/// How often each number occurred: accepted, 4, 5, 15.
#[derive(Default)]
struct Met([u64; 4]);

impl Met {
    fn count(&mut self, number: u32) {
        let at = match number {
            0 => 0,
            4 => 1,
            5 => 2,
            15 => 3,
            _ => {
                println!("the reference answered {number}");
                exit(1)
            }
        };
        self.0[at] += 1;
    }

    fn add(&mut self, other: &Met) {
        self.0.iter_mut().zip(other.0).for_each(|(sum, more)| *sum += more);
    }
}

fn compare(library: ReadText, text: &[u8], met: &mut Met) {
    let wanted = text_tree::read_text(text);
    met.count(wanted.number);
    let answer = library(text);
    if answer != wanted {
        println!("differs: {:?}", String::from_utf8_lossy(text));
        println!("reference: {wanted:?}");
        println!("library:   {answer:?}");
        exit(1);
    }
}

/// Compares all texts of this length that begin with this text.
fn compare_all(library: ReadText, text: &mut Vec<u8>, length: usize, met: &mut Met) {
    if text.len() == length {
        compare(library, text, met);
        return;
    }
    for letter in LETTERS {
        text.push(letter);
        compare_all(library, text, length, met);
        text.pop();
    }
}

/// Each pair of a length and a first letter is one part. The parts are shared among the threads.
fn compare_short(library: ReadText) -> Met {
    let mut parts: Vec<(usize, Vec<u8>)> = vec![(0, Vec::new())];
    for length in 1..=LONGEST {
        parts.extend(LETTERS.map(|letter| (length, vec![letter])));
    }
    let next = std::sync::atomic::AtomicUsize::new(0);
    let mut met = Met::default();
    std::thread::scope(|scope| {
        let work = || {
            let mut met = Met::default();
            while let Some((length, first)) = parts.get(next.fetch_add(1, std::sync::atomic::Ordering::Relaxed)) {
                compare_all(library, &mut first.clone(), *length, &mut met);
            }
            met
        };
        let count = std::thread::available_parallelism().map_or(1, |count| count.get());
        let threads: Vec<_> = (0..count).map(|_| scope.spawn(work)).collect();
        threads.into_iter().for_each(|thread| met.add(&thread.join().expect("a thread of the comparison")));
    });
    met
}

/// At each position, cuts the text, removes a byte, replaces it by another, and inserts a byte.
fn compare_damaged(library: ReadText, text: &[u8], random: &mut Random, met: &mut Met) {
    let mut byte = || if random.one_in(8) { random.word() as u8 } else { random.pick(&ALPHABET) };
    for place in 0..=text.len() {
        let (front, back) = text.split_at(place);
        compare(library, front, met);
        compare(library, &[front, &[byte()], back].concat(), met);
        if let [_, after @ ..] = back {
            compare(library, &[front, after].concat(), met);
            compare(library, &[front, &[byte()], after].concat(), met);
        }
    }
}

fn main() {
    let options = Options::read(3_000, 60_000);
    let library = library::read_text();
    let subject = if library.is_some() { "the library's reader of texts against the reference's" } else { "no library named, texts only counted" };
    println!("{subject}: all up to {LONGEST} bytes, {} long ones and each damaged, seed {}", options.count, options.seed);
    let read = library.unwrap_or(text_tree::read_text);
    let short = compare_short(read);
    println!("short: accepted: {}, refused 5: {}, 15: {}", short.0[0], short.0[2], short.0[3]);
    let mut random = Random::new(options.seed);
    let (mut long, mut damaged) = (Met::default(), Met::default());
    for _ in 0..options.count {
        let text = random_text(&mut random);
        compare(read, &text, &mut long);
        compare_damaged(read, &text, &mut random, &mut damaged);
    }
    for (name, met) in [("long", &long), ("damaged", &damaged)] {
        println!("{name}: accepted: {}, refused 4: {}, 5: {}, 15: {}", met.0[0], met.0[1], met.0[2], met.0[3]);
    }
    let unmet = [short.0[0], short.0[2], short.0[3]].contains(&0) || long.0.contains(&0) || damaged.0.contains(&0);
    conclude(!unmet, library.is_some(), &["HMCS_LIBRARY"]);
}
