//! The longest waits of a tree: nanoseconds per call, which grow with the array sizes and not with the numbers.

use crate::{draft_with_schedule, shapes, time, CALLS, ROUNDS, SCHEDULES};
use reference::bounds::{wait_bounds, WaitBounds};
use reference::library;
use reference::opaque::opaque;
use reference::random::Random;
use reference::random_state::tree_words;
use reference::table::THREAD_ROOM;
use reference::words::TreeWords;

/// The best of the rounds, in nanoseconds per call.
fn cost(call: WaitBounds, tree: &TreeWords) -> f64 {
    let mut buffer = [0; THREAD_ROOM];
    let calls = |buffer: &mut [u64; THREAD_ROOM]| (0..CALLS).for_each(|_| assert_eq!(call(opaque(tree), buffer).0, 0));
    (0..ROUNDS).map(|_| time(|| calls(&mut buffer))).fold(f64::MAX, f64::min) / CALLS as f64
}

/// Prints the table. Its ratios do not count toward the worst one, because the reference builds lists.
pub fn print() {
    println!("longest waits: nanoseconds a call, of the reference and the library");
    for shape in shapes(false) {
        let words = tree_words(&mut Random::new(1), &draft_with_schedule(shape, SCHEDULES[0].1, 0));
        print!("{:>7} {:>7}", shape.domains, shape.threads);
        for call in std::iter::once(wait_bounds as WaitBounds).chain(library::wait_bounds()) {
            print!("  {:>9.0}", cost(call, &words));
        }
        println!();
    }
}
