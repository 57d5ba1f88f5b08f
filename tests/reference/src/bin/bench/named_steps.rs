//! The check of steps: nanoseconds per step, for the step table's run, the library's run and the library's check of the same steps.

use crate::{draft_with_schedule, shapes, time, Worst, ROUNDS, SCHEDULES};
use reference::calls::{Calls, TABLE};
use reference::kinds::ROW;
use reference::library;
use reference::opaque::opaque;
use reference::random::Random;
use reference::random_state::tree_words;
use reference::words::{StateWords, TreeWords};

/// Nanoseconds of the table's run, the library's run and the library's check, the best of the rounds. In each round all three run once.
fn costs(library: Calls, tree: &TreeWords, schedule: &[u16]) -> [f64; 3] {
    let (mut trace, mut rows) = (vec![0; schedule.len()], vec![0; ROW * schedule.len()]);
    let fresh = StateWords::fresh();
    assert_eq!((TABLE.run_kinds)(tree, &fresh, schedule, &mut trace, &mut rows).number, 0);
    let column = |at: usize| rows.iter().skip(at).step_by(ROW).copied().collect::<Vec<u16>>();
    let (kinds, domains) = (column(0), column(1));
    let mut best = [f64::MAX; 3];
    for _ in 0..ROUNDS {
        best[0] = best[0].min(time(|| assert_eq!((TABLE.run)(tree, &fresh, opaque(schedule), &mut trace).number, 0)));
        best[1] = best[1].min(time(|| assert_eq!((library.run)(tree, &fresh, opaque(schedule), &mut trace).number, 0)));
        best[2] = best[2].min(time(|| assert_eq!((library.check_steps)(tree, &fresh, opaque(schedule), &kinds, &domains).number, 0)));
    }
    best
}

/// Prints the table and adds the ratios of the check to the step table's run. Prints nothing if the library lacks the calls.
pub fn print(worst: &mut Worst) {
    let library = match library::calls() {
        Some(calls) => calls,
        None => return,
    };
    println!("the check of steps, 65536 of them: nanoseconds a step, of the step table's run, the library's run and its check; the check's ratios to both runs");
    for shape in shapes(false).into_iter().chain(shapes(true)) {
        for (name, style) in SCHEDULES {
            let draft = draft_with_schedule(shape, style, 65_536);
            let words = tree_words(&mut Random::new(1), &draft);
            let [table, run, check] = costs(library, &words, &draft.schedule);
            print!("{name:<14} {:>7} {:>7} {:>6}", shape.domains, shape.threads, if shape.ticket_root { "ticket" } else { "" });
            println!("  {:>7.2} {:>7.2} {:>7.2}  {:>5.2} {:>5.2}", table / 65_536.0, run / 65_536.0, check / 65_536.0, check / table, check / run);
            worst.add(shape, vec![check / table]);
        }
    }
}
