//! Many schedules in one call: nanoseconds per step and per schedule, for long schedules and for short ones.

use crate::{draft_with_schedule, shapes, time, Worst, ROUNDS, SCHEDULES};
use reference::library;
use reference::many::{run_many, RunMany, ROW};
use reference::opaque::opaque;
use reference::random::Random;
use reference::random_state::tree_words;
use reference::words::TreeWords;

/// The number of schedules, and the number of entries in each.
const MANY: [(usize, usize); 2] = [(40, 1_600), (4_000, 16)];

/// Nanoseconds per call, the best of the rounds. In each round every program runs once.
fn costs(programs: &[RunMany], tree: &TreeWords, lengths: &[u32], entries: &[u16]) -> Vec<f64> {
    let mut rows = vec![0; ROW * lengths.len()];
    let mut best = vec![f64::MAX; programs.len()];
    for _ in 0..ROUNDS {
        for (call, cost) in programs.iter().zip(&mut best) {
            *cost = cost.min(time(|| assert_eq!(call(tree, lengths, opaque(entries), &mut rows).0, 0)));
        }
    }
    best
}

/// Prints the table and adds its ratios. Prints nothing if the library lacks the call.
pub fn print(worst: &mut Worst) {
    let library = match library::run_many() {
        Some(library) => library,
        None => return,
    };
    println!("many schedules in one call: nanoseconds a step, of the step table and the library; their ratio; nanoseconds a schedule, of both");
    for (many, length) in MANY {
        for shape in shapes(false).into_iter().chain(shapes(true)) {
            for (name, style) in SCHEDULES {
                let draft = draft_with_schedule(shape, style, many * length);
                let words = tree_words(&mut Random::new(1), &draft);
                let costs = costs(&[run_many, library], &words, &vec![length as u32; many], &draft.schedule);
                let steps = (many * length) as f64;
                let ratio = costs[1] / costs[0];
                print!("{name:<14} {:>7} {:>7} {:>6}  {many:>4} of {length:>4}", shape.domains, shape.threads, if shape.ticket_root { "ticket" } else { "" });
                print!("  {:>7.2} {:>7.2}  {ratio:>5.2}", costs[0] / steps, costs[1] / steps);
                println!("  {:>8.0} {:>8.0}", costs[0] / many as f64, costs[1] / many as f64);
                worst.add(shape, vec![ratio]);
            }
        }
    }
}
