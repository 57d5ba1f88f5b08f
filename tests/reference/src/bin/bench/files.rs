//! The file call: whole files, and what each step adds to a call without entries.

use crate::{draft_with_schedule, print_head, print_line, shapes, time, Shape, Worst, ROUNDS, SCHEDULES};
use reference::library::{self, RunFile};
use reference::lock_file::{self, LONGEST_FILE};
use reference::opaque::opaque;
use reference::random::Random;
use reference::schedules::Style;

const ENTRIES: usize = 32_000;

/// The same file with its schedule and without.
struct Pair {
    full: Vec<u8>,
    empty: Vec<u8>,
}

/// Nanoseconds per call, for each of the two files.
struct Cost {
    full: f64,
    empty: f64,
}

impl Cost {
    /// Microseconds per file and nanoseconds per step.
    fn columns(&self) -> [f64; 2] {
        [self.full / 1000.0, (self.full - self.empty) / ENTRIES as f64]
    }
}

fn pair(shape: Shape, style: Style) -> Pair {
    let mut draft = draft_with_schedule(shape, style, ENTRIES);
    let full = draft.write(&mut Random::new(1));
    draft.schedule.clear();
    Pair { full, empty: draft.write(&mut Random::new(1)) }
}

/// The best of the rounds. In each round every file call runs once.
fn costs(calls: &[RunFile], pair: &Pair) -> Vec<Cost> {
    let mut output = vec![0; LONGEST_FILE];
    let mut measure = |call: RunFile, file: &[u8]| time(|| assert_eq!(call(opaque(file), &mut output).number, 0));
    let mut best: Vec<Cost> = calls.iter().map(|_| Cost { full: f64::MAX, empty: f64::MAX }).collect();
    for _ in 0..ROUNDS {
        for (call, cost) in calls.iter().zip(&mut best) {
            cost.full = cost.full.min(measure(*call, &pair.full));
            cost.empty = cost.empty.min(measure(*call, &pair.empty));
        }
    }
    best
}

/// What a call costs before its first step, in microseconds. It does not count toward the ratios.
fn print_empty(shape: Shape, costs: &[Cost]) {
    let empty: Vec<String> = costs.iter().map(|cost| format!("{:>9.2}", cost.empty / 1000.0)).collect();
    print_head("no entries", shape);
    println!("  {}", empty.join(&" ".repeat(10)));
}

fn same_answers(calls: &[RunFile], file: &[u8]) -> bool {
    let answer = |call: &RunFile| {
        let mut output = vec![0; LONGEST_FILE];
        (call(file, &mut output), output)
    };
    calls.iter().all(|call| answer(call) == answer(&calls[0]))
}

fn print_schedule(calls: &[RunFile], shape: Shape, name: &str, style: Style) -> (Vec<Cost>, Vec<f64>) {
    let pair = pair(shape, style);
    assert!(same_answers(calls, &pair.full), "the answers differ");
    let costs = costs(calls, &pair);
    let columns: Vec<[f64; 2]> = costs.iter().map(Cost::columns).collect();
    let ratios = print_line(name, shape, &columns);
    (costs, ratios)
}

/// Prints the table and adds its ratios.
pub fn print(worst: &mut Worst) {
    let calls: Vec<RunFile> = std::iter::once(lock_file::run_file as RunFile).chain(library::run_file()).collect();
    println!("file call, {ENTRIES} entries: microseconds a file and nanoseconds a step, of the step table and the library; their ratios");
    for shape in [shapes(false), shapes(true)].concat() {
        let lines = SCHEDULES.map(|(name, style)| print_schedule(&calls, shape, name, style));
        print_empty(shape, &lines[0].0);
        lines.into_iter().for_each(|(_, ratios)| worst.add(shape, ratios));
    }
}

/// Repeats the file call of the step table or the library on one schedule of one tree, for counting instructions.
/// Trees are numbered in the order they are printed, those with ticket roots from 3.
pub fn repeat(library: bool, schedule: usize, tree: usize, times: usize) {
    let calls: Vec<RunFile> = std::iter::once(lock_file::run_file as RunFile).chain(library::run_file()).collect();
    let call = calls[usize::from(library)];
    let pair = pair([shapes(false), shapes(true)].concat()[tree], SCHEDULES[schedule].1);
    let mut output = vec![0; LONGEST_FILE];
    for _ in 0..times {
        assert_eq!(call(opaque(&pair.full), &mut output).number, 0);
    }
}
