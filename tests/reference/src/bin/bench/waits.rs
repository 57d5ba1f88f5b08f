//! Runs with waits, from no attempt under way and continued from some: nanoseconds per step, for a long schedule and for an empty one.

use crate::{draft_with_schedule, shapes, time, Shape, Worst, ROUNDS, SCHEDULES};
use reference::library;
use reference::opaque::opaque;
use reference::random::Random;
use reference::random_state::tree_words;
use reference::waits::{run_waits, run_waits_on, RunWaits, RunWaitsOn, ROW};
use reference::words::{StateWords, TreeWords};

/// Nanoseconds per call, the best of the rounds. In each round every program runs once.
fn costs(programs: &[RunWaits], tree: &TreeWords, schedule: &[u16]) -> Vec<f64> {
    let mut rows = vec![0; ROW * (tree.threads as usize + 1)];
    let mut trace = vec![0; schedule.len()];
    let fresh = StateWords::fresh();
    let mut best = vec![f64::MAX; programs.len()];
    for _ in 0..ROUNDS {
        for (call, cost) in programs.iter().zip(&mut best) {
            *cost = cost.min(time(|| assert_eq!(call(tree, &fresh, opaque(schedule), &mut trace, &mut rows).number, 0)));
        }
    }
    best
}

/// The same for a continued run, from the state and the attempts under way after the same schedule.
fn costs_on(programs: &[RunWaitsOn], tree: &TreeWords, schedule: &[u16]) -> Vec<f64> {
    let mut rows = vec![0; ROW * (tree.threads as usize + 1)];
    let mut trace = vec![0; schedule.len()];
    let mut numbers = [0; 256];
    let state = run_waits_on(tree, &StateWords::fresh(), schedule, &mut trace, &mut rows, &mut numbers).state;
    let mut best = vec![f64::MAX; programs.len()];
    for _ in 0..ROUNDS {
        for (call, cost) in programs.iter().zip(&mut best) {
            let mut under_way = numbers;
            *cost = cost.min(time(|| assert_eq!(call(tree, &state, opaque(schedule), &mut trace, &mut rows, &mut under_way).number, 0)));
        }
    }
    best
}

fn print_line(name: &str, shape: Shape, long: &[f64], none: &[f64], worst: &mut Worst) {
    let ratio = long[1] / long[0];
    print!("{name:<14} {:>7} {:>7} {:>6}", shape.domains, shape.threads, if shape.ticket_root { "ticket" } else { "" });
    println!("  {:>7.2} {:>7.2}  {ratio:>5.2}  {:>7.2} {:>7.2}", long[0] / 65_536.0, long[1] / 65_536.0, none[0] / 1_000.0, none[1] / 1_000.0);
    worst.add(shape, vec![ratio]);
}

/// Prints the tables and adds the ratios of long schedules. Prints nothing if the library lacks the calls.
pub fn print(worst: &mut Worst) {
    let (library, library_on) = match library::run_waits().zip(library::run_waits_on()) {
        Some(calls) => calls,
        None => return,
    };
    let units = "65536 entries: nanoseconds a step, of the step table and the library; their ratio; microseconds a run without entries, of both";
    for goes_on in [false, true] {
        println!("a run with waits{}, {units}", if goes_on { " that goes on" } else { "" });
        for shape in shapes(false).into_iter().chain(shapes(true)) {
            for (name, style) in SCHEDULES {
                let draft = draft_with_schedule(shape, style, 65_536);
                let words = tree_words(&mut Random::new(1), &draft);
                let cost = |schedule: &[u16]| {
                    if goes_on {
                        costs_on(&[run_waits_on, library_on], &words, schedule)
                    } else {
                        costs(&[run_waits, library], &words, schedule)
                    }
                };
                print_line(name, shape, &cost(&draft.schedule), &cost(&[]), worst);
            }
        }
    }
}
