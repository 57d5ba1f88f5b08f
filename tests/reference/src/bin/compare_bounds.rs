//! Compares the library's calls for allowances, rounds and longest waits with the reference's. Each number is capped at the largest 64-bit number. Without the library it only counts what the cases cover.

use reference::bounds::{allowances, rounds, wait_bounds, Allowances, Rounds, RoundsReply, WaitBounds};
use reference::library;
use reference::met::Met;
use reference::options::{conclude, Options};
use reference::random::Random;
use reference::random_file::{broken_draft, valid_draft};
use reference::random_state::tree_words;
use reference::table::{DOMAIN_ROOM, THREAD_ROOM};
use reference::words::TreeWords;
use std::process::exit;

type Calls = (Allowances, Rounds, WaitBounds);

/// The answers for the allowances, the rounds and the longest waits, and the two buffers. The buffers hold other words before the calls.
#[derive(Debug, PartialEq, Eq)]
struct Answers {
    allowances: (u32, u32),
    domains: [u64; DOMAIN_ROOM],
    rounds: RoundsReply,
    waits: (u32, u32),
    threads: [u64; THREAD_ROOM],
}

fn make(calls: Calls, tree: &TreeWords, seed: u64) -> Answers {
    let mut random = Random::new(seed);
    let mut domains = std::array::from_fn(|_| random.word());
    let mut threads = std::array::from_fn(|_| random.word());
    let allowances = calls.0(tree, &mut domains);
    let waits = calls.2(tree, &mut threads);
    Answers { allowances, domains, rounds: calls.1(tree), waits, threads }
}

/// How many numbers of accepted trees were capped, and how many others were above 32 bits.
#[derive(Default)]
struct Sizes {
    cut: usize,
    whole: usize,
}

impl Sizes {
    fn count(&mut self, numbers: &[u64]) {
        self.cut += numbers.iter().filter(|&&number| number == u64::MAX).count();
        self.whole += numbers.iter().filter(|&&number| number > u32::MAX as u64 && number < u64::MAX).count();
    }

    /// Prints the counts, and returns whether both occurred.
    fn print(&self, name: &str) -> bool {
        println!("{} {name} cut, {} others above 32 bits", self.cut, self.whole);
        self.cut > 0 && self.whole > 0
    }
}

fn main() {
    let options = Options::read(100_000, 1_000_000);
    let own: Calls = (allowances, rounds, wait_bounds);
    let library = library::allowances().zip(library::rounds()).zip(library::wait_bounds()).map(|((a, r), w)| (a, r, w));
    let subject = if library.is_some() {
        "the library's allowances, rounds and longest waits against the reference's"
    } else {
        "no library with these calls named, cases only counted"
    };
    println!("{subject}: {} trees, seed {}", options.count, options.seed);
    let mut random = Random::new(options.seed);
    let mut met = Met::new(&[4, 5, 6, 7, 8, 9, 16]);
    let [mut words, mut bounds, mut turns, mut waits] = [(); 4].map(|()| Sizes::default());
    for number in 0..options.count {
        let draft = if random.one_in(4) { broken_draft(&mut random) } else { valid_draft(&mut random) };
        let (mut tree, seed) = (tree_words(&mut random, &draft), random.word());
        if random.one_in(4) {
            tree.thresholds = std::array::from_fn(|_| random.between(60_000, 65_535) as u16);
        }
        let expected = make(own, &tree, seed);
        if make(library.unwrap_or(own), &tree, seed) != expected {
            println!("tree {number} differs: {tree:?}; it is {expected:?}");
            exit(1);
        }
        met.count(expected.allowances.0);
        if expected.allowances.0 == 0 {
            words.count(&expected.domains);
            bounds.count(&[expected.rounds.rounds]);
            turns.count(&[expected.rounds.turns]);
            waits.count(&expected.threads);
        }
    }
    met.print();
    let sizes = [words.print("allowances"), bounds.print("numbers of rounds"), turns.print("numbers of turns"), waits.print("longest waits")];
    conclude(met.complete() && sizes.iter().all(|&both| both), library.is_some(), &["HMCS_LIBRARY", "HMCS_CALLS"]);
}
