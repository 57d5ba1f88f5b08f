//! Writing lock files: nanoseconds per byte at three lengths, to show that the cost grows with the bytes and no faster.

use crate::{draft_with_schedule, shapes, time, ROUNDS, SCHEDULES};
use reference::file_writer::{write_file, WriteFile};
use reference::library;
use reference::lock_file::LONGEST_FILE;
use reference::opaque::opaque;
use reference::random::Random;
use reference::random_state::tree_words;
use reference::words::TreeWords;

const ENTRIES: [usize; 3] = [0, 1_000, 32_000];

/// The best of the rounds, in nanoseconds, and the file's length.
fn cost(call: WriteFile, tree: &TreeWords, schedule: &[u16]) -> (f64, u32) {
    let mut buffer = vec![0; LONGEST_FILE];
    let length = call(tree, schedule, &mut buffer).length;
    ((0..ROUNDS).map(|_| time(|| assert_eq!(call(tree, opaque(schedule), &mut buffer).number, 0))).fold(f64::MAX, f64::min), length)
}

/// Prints the table. Its ratios do not count toward the worst one.
pub fn print() {
    println!("writing a lock file: nanoseconds and nanoseconds a byte, of the reference and the library");
    for entries in ENTRIES {
        for shape in shapes(true) {
            let draft = draft_with_schedule(shape, SCHEDULES[0].1, entries);
            let words = tree_words(&mut Random::new(1), &draft);
            print!("{entries:>7} entries {:>7} {:>7}", shape.domains, shape.threads);
            for call in std::iter::once(write_file as WriteFile).chain(library::write_file()) {
                let (cost, length) = cost(call, &words, &draft.schedule);
                print!("  {cost:>9.0} {:>6.2}", cost / f64::from(length));
            }
            println!();
        }
    }
}
