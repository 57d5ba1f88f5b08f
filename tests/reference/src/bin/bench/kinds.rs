//! Runs that report their steps: nanoseconds per step, for a long schedule. Also the check of a state.

use crate::{draft_with_schedule, shapes, time, Worst, ROUNDS, SCHEDULES};
use reference::calls::{Calls, TABLE};
use reference::kinds::ROW;
use reference::library;
use reference::opaque::opaque;
use reference::random::Random;
use reference::random_state::tree_words;
use reference::words::{StateWords, TreeWords};

/// Nanoseconds per call, the best of the rounds. In each round every program runs once.
fn costs(programs: &[Calls], tree: &TreeWords, schedule: &[u16]) -> Vec<f64> {
    let mut rows = vec![0; ROW * schedule.len()];
    let mut trace = vec![0; schedule.len()];
    let fresh = StateWords::fresh();
    let mut best = vec![f64::MAX; programs.len()];
    for _ in 0..ROUNDS {
        for (calls, cost) in programs.iter().zip(&mut best) {
            *cost = cost.min(time(|| assert_eq!((calls.run_kinds)(tree, &fresh, opaque(schedule), &mut trace, &mut rows).number, 0)));
        }
    }
    best
}

/// Nanoseconds of the library's check of a state that is reached by some steps.
fn check_cost(calls: Calls, tree: &TreeWords, schedule: &[u16]) -> f64 {
    let mut trace = vec![0; schedule.len()];
    let state = (calls.run)(tree, &StateWords::fresh(), schedule, &mut trace).state;
    (0..ROUNDS).map(|_| time(|| assert_eq!((calls.check_state)(tree, opaque(&state)), (0, 0)))).fold(f64::MAX, f64::min)
}

/// Prints the table and adds the ratios. Prints nothing if the library lacks the calls.
pub fn print(worst: &mut Worst) {
    let library = match library::calls() {
        Some(calls) => calls,
        None => return,
    };
    println!("a run that reports its steps, 65536 entries: nanoseconds a step, of the step table and the library; their ratio; microseconds a check of the state after it");
    for shape in shapes(false).into_iter().chain(shapes(true)) {
        for (name, style) in SCHEDULES {
            let draft = draft_with_schedule(shape, style, 65_536);
            let words = tree_words(&mut Random::new(1), &draft);
            let cost = costs(&[TABLE, library], &words, &draft.schedule);
            let ratio = cost[1] / cost[0];
            print!("{name:<14} {:>7} {:>7} {:>6}", shape.domains, shape.threads, if shape.ticket_root { "ticket" } else { "" });
            println!("  {:>7.2} {:>7.2}  {ratio:>5.2}  {:>7.2}", cost[0] / 65_536.0, cost[1] / 65_536.0, check_cost(library, &words, &draft.schedule) / 1_000.0);
            worst.add(shape, vec![ratio]);
        }
    }
}
