//! Compares the library's lock file writer with the reference's. Without the library it only counts what the cases cover. Each file that is
//! written is read back. It must not be longer than a file with random bits set for the same tree and schedule.

use reference::draft::Draft;
use reference::file_writer::{shortest, write_file, wrong_when_written_again, WriteFile};
use reference::library;
use reference::lock_file::{FileAnswer, LONGEST_FILE};
use reference::met::Met;
use reference::options::{conclude, Options};
use reference::random::Random;
use reference::random_file::{broken_draft, valid_draft};
use reference::random_state::tree_words;
use reference::refusals::LONGEST_SCHEDULE;
use reference::words::TreeWords;
use std::process::exit;

const CANARY: usize = 64;

/// The input of one call. The buffer is between canaries.
struct Case {
    draft: Draft,
    tree: TreeWords,
    buffer: Vec<u8>,
}

/// Sometimes the most entries allowed or one more, sometimes as many as a file holds or up to two more or fewer.
fn lengthen(random: &mut Random, draft: &mut Draft) {
    let length = match random.below(1_000) {
        0 => LONGEST_SCHEDULE + random.below(2),
        1..=10 => {
            let head = shortest(&draft.tree(), &[]).len();
            (LONGEST_FILE - head) / 2 + random.below(5) - 2
        }
        _ => return,
    };
    draft.schedule = (0..length).map(|_| random.below(draft.homes.len()) as u16).collect();
    if random.one_in(8) {
        let position = random.below(length);
        draft.schedule[position] = random.pick(&[draft.homes.len() as u16, 256, 65_535]);
    }
}

fn random_case(random: &mut Random) -> Case {
    let mut draft = if random.one_in(4) { broken_draft(random) } else { valid_draft(random) };
    let tree = tree_words(random, &draft);
    if write_file(&tree, &[], &mut vec![0; LONGEST_FILE]).number == 0 {
        lengthen(random, &mut draft);
    }
    let length = write_file(&tree, &draft.schedule, &mut vec![0; LONGEST_FILE]).length as usize;
    let room = match random.below(8) {
        0 => random.below(40),
        1 | 2 => length.saturating_sub(random.between(1, 3)),
        3..=5 => length,
        6 => LONGEST_FILE,
        _ => length + random.below(100),
    };
    let buffer = random.bytes(CANARY + room + CANARY);
    Case { draft, tree, buffer }
}

fn make(call: WriteFile, case: &Case) -> (FileAnswer, Vec<u8>) {
    let mut buffer = case.buffer.clone();
    let end = buffer.len() - CANARY;
    let answer = call(&case.tree, &case.draft.schedule, &mut buffer[CANARY..end]);
    (answer, buffer)
}

fn fail(number: usize, case: &Case, text: String) -> ! {
    println!("case {number}: {text}");
    println!("{:?}", case.tree);
    println!("{} entries, room {}", case.draft.schedule.len(), case.buffer.len() - 2 * CANARY);
    exit(1)
}

fn main() {
    let options = Options::read(200_000, 2_000_000);
    let library = library::write_file();
    let subject = if library.is_some() { "the library's writer of lock files against the reference" } else { "no library with these calls named, cases only counted" };
    println!("{subject}: {} cases, seed {}", options.count, options.seed);
    let mut random = Random::new(options.seed);
    let mut met = Met::new(&[4, 5, 6, 7, 8, 9, 16, 11, 12, 1, 17]);
    let mut full = 0_u64;
    for number in 0..options.count {
        let case = random_case(&mut random);
        let (answer, buffer) = make(write_file, &case);
        if let Some(call) = library {
            let (other, other_buffer) = make(call, &case);
            if other != answer || other_buffer != buffer {
                fail(number, &case, format!("reference {answer:?}, library {other:?}, buffers {}", if buffer == other_buffer { "the same" } else { "not the same" }));
            }
        }
        met.count(answer.number);
        if answer.number == 0 {
            let file = &buffer[CANARY..CANARY + answer.length as usize];
            full += u64::from(file.len() == LONGEST_FILE);
            if let Some(wrong) = wrong_when_written_again(library.unwrap_or(write_file), file) {
                fail(number, &case, format!("the file, written again, {wrong}"));
            }
            if case.draft.write(&mut random).len() < file.len() {
                fail(number, &case, "another file is shorter".to_string());
            }
        }
    }
    met.print();
    println!("files of 65,536 bytes: {full}");
    conclude(met.complete() && full > 0, library.is_some(), &["HMCS_LIBRARY", "HMCS_CALLS"]);
}
