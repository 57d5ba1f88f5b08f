//! The check of a journal: nanoseconds per entry, for journals that leave defaults out.

use crate::{draft_with_schedule, shapes, time, Worst, ROUNDS, SCHEDULES};
use reference::journal::{check_journal, write_journal, CheckJournal};
use reference::library;
use reference::opaque::opaque;
use reference::random::Random;
use reference::random_state::tree_words;
use reference::words::TreeWords;

const ENTRIES: usize = 32_000;

/// Nanoseconds per call, the best of the rounds. In each round every program runs once.
fn costs(programs: &[CheckJournal], tree: &TreeWords, journal: &[u8]) -> Vec<f64> {
    let mut best = vec![f64::MAX; programs.len()];
    for _ in 0..ROUNDS {
        for (call, cost) in programs.iter().zip(&mut best) {
            *cost = cost.min(time(|| assert_eq!(call(tree, opaque(journal)).number, 0)));
        }
    }
    best
}

/// Prints the table and adds its ratios. Prints nothing if the library lacks the call.
pub fn print(worst: &mut Worst) {
    let library = match library::check_journal() {
        Some(library) => library,
        None => return,
    };
    println!("the check of a journal: nanoseconds an entry, of the step table and the library; their ratio");
    for shape in shapes(false).into_iter().chain(shapes(true)) {
        for (name, style) in SCHEDULES {
            let draft = draft_with_schedule(shape, style, ENTRIES);
            let words = tree_words(&mut Random::new(1), &draft);
            let (journal, _) = write_journal(&words.tree(), &draft.schedule, &mut Random::new(1), None);
            let costs = costs(&[check_journal, library], &words, &journal);
            let ratio = costs[1] / costs[0];
            print!("{name:<14} {:>7} {:>7} {:>6}", shape.domains, shape.threads, if shape.ticket_root { "ticket" } else { "" });
            println!("  {:>7.2} {:>7.2}  {ratio:>5.2}", costs[0] / ENTRIES as f64, costs[1] / ENTRIES as f64);
            worst.add(shape, vec![ratio]);
        }
    }
}
