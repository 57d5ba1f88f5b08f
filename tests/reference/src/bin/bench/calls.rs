//! The run on a caller's state: what each step adds to a run of one entry. Also single steps.

use crate::{draft_with_schedule, print_head, print_line, shapes, time, Shape, Worst, ROUNDS, SCHEDULES};
use reference::calls::{Calls, TABLE};
use reference::library;
use reference::opaque::opaque;
use reference::random::Random;
use reference::random_state::tree_words;
use reference::refusals::LONGEST_SCHEDULE;
use reference::schedules::Style;
use reference::words::{StateWords, TreeWords};

/// Nanoseconds of a whole run and of its first entry alone, from a fresh state. Also, from the state after the whole run, of a run of one entry, a single step and a step in place.
#[derive(Clone, Copy)]
struct Cost {
    run: f64,
    first: f64,
    one: f64,
    step: f64,
    in_place: f64,
}

impl Cost {
    const NONE: Cost = Cost { run: f64::MAX, first: f64::MAX, one: f64::MAX, step: f64::MAX, in_place: f64::MAX };

    /// Microseconds per run and nanoseconds per step.
    fn columns(&self) -> [f64; 2] {
        [self.run / 1000.0, (self.run - self.first) / (LONGEST_SCHEDULE - 1) as f64]
    }

    fn least(self, other: Cost) -> Cost {
        let Cost { run, first, one, step, in_place } = other;
        Cost {
            run: self.run.min(run),
            first: self.first.min(first),
            one: self.one.min(one),
            step: self.step.min(step),
            in_place: self.in_place.min(in_place),
        }
    }
}

/// The best of several measurements of a call so short that other work on the machine affects it.
fn best(mut measure: impl FnMut() -> f64) -> f64 {
    (0..ROUNDS).map(|_| measure()).fold(f64::MAX, f64::min)
}

fn round(calls: Calls, tree: &TreeWords, schedule: &[u16], after: &StateWords, trace: &mut [u16]) -> Cost {
    let fresh = StateWords::fresh();
    let mut state = *after;
    let mut threads = schedule.iter().cycle();
    let mut next = || *threads.next().expect("an entry");
    let mut run = |state: &StateWords, schedule: &[u16]| time(|| assert_eq!((calls.run)(tree, opaque(state), schedule, trace).number, 0));
    Cost {
        run: run(&fresh, schedule),
        first: best(|| run(&fresh, &schedule[..1])),
        one: best(|| run(after, &schedule[..1])),
        step: best(|| time(|| assert_eq!((calls.step)(tree, opaque(after), next()).answer.number, 0))),
        in_place: best(|| time(|| assert_eq!((calls.step_in_place)(tree, &mut state, next()).number, 0))),
    }
}

/// The best of the rounds. In each round every program runs once.
fn costs(programs: &[Calls], tree: &TreeWords, schedule: &[u16]) -> Vec<Cost> {
    let mut trace = vec![0; LONGEST_SCHEDULE];
    let after = (TABLE.run)(tree, &StateWords::fresh(), schedule, &mut trace).state;
    let mut best = vec![Cost::NONE; programs.len()];
    for _ in 0..ROUNDS {
        for (calls, cost) in programs.iter().zip(&mut best) {
            *cost = cost.least(round(*calls, tree, schedule, &after, &mut trace));
        }
    }
    best
}

/// The step table converts words to a state and back in each call, so these lines do not count toward the ratios.
fn print_single(shape: Shape, schedule: &str, costs: &[Cost]) {
    for (name, cost) in [("step table", costs[0]), ("library", costs[1])] {
        let Cost { one, step, in_place, .. } = cost;
        print_head(schedule, shape);
        println!("  {name}: run of one {one:.0} ns, step {step:.0} ns, step in place {in_place:.0} ns");
    }
}

fn print_schedule(programs: &[Calls], shape: Shape, name: &str, style: Style) -> (Vec<Cost>, Vec<f64>) {
    let draft = draft_with_schedule(shape, style, LONGEST_SCHEDULE);
    let words = tree_words(&mut Random::new(1), &draft);
    let costs = costs(programs, &words, &draft.schedule);
    let columns: Vec<[f64; 2]> = costs.iter().map(Cost::columns).collect();
    let ratios = print_line(name, shape, &columns);
    (costs, ratios)
}

/// Prints the table and adds its ratios. Prints nothing if the library lacks these calls.
pub fn print(worst: &mut Worst) {
    let library = match library::calls() {
        Some(library) => library,
        None => return,
    };
    println!("run on a caller's state, {LONGEST_SCHEDULE} entries: microseconds a run and nanoseconds a step, of the step table and the library; their ratios");
    let mut singles = Vec::new();
    for shape in [shapes(false), shapes(true)].concat() {
        for (name, style) in SCHEDULES {
            let (costs, ratios) = print_schedule(&[TABLE, library], shape, name, style);
            worst.add(shape, ratios);
            singles.push((shape, name, costs));
        }
    }
    println!("single calls, from the state that the run leaves");
    for (shape, name, costs) in &singles {
        print_single(*shape, name, costs);
    }
}
