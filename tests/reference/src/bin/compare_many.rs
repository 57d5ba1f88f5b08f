//! Compares the library's call for many schedules with the step table's, and each row of an accepted call with a run of its schedule alone. Without
//! the library it only counts what the cases cover.

use reference::calls::{Calls, TABLE};
use reference::library;
use reference::many::{run_many, RunMany, ROW};
use reference::met::Met;
use reference::options::{conclude, Options};
use reference::random::Random;
use reference::random_file::{broken_draft, valid_draft};
use reference::random_state::tree_words;
use reference::refusals::LONGEST_SCHEDULE;
use reference::words::*;
use std::process::exit;

const CANARY: usize = 16;

/// The input of one call. The row buffer is between canaries.
struct Case {
    tree: TreeWords,
    lengths: Vec<u32>,
    entries: Vec<u16>,
    rows: Vec<u32>,
}

/// The entries of a schedule: none, a few, sometimes the most allowed or one more, sometimes with one that names no thread.
fn random_schedule(random: &mut Random, threads: u32) -> Vec<u16> {
    let length = match random.below(2_000) {
        0 => LONGEST_SCHEDULE + random.below(2),
        1..=400 => 0,
        401..=500 => random.between(1, 400),
        _ => random.between(1, 30),
    };
    let mut schedule: Vec<u16> = (0..length).map(|_| random.below(threads.clamp(1, 256) as usize) as u16).collect();
    if length > 0 && random.one_in(8) {
        let position = random.below(length);
        schedule[position] = random.pick(&[threads as u16, 256, 65_535]);
    }
    schedule
}

/// Makes the lengths add up to one too many or too few, or to the right sum only modulo 2^32.
fn spoil(random: &mut Random, lengths: &mut Vec<u32>, entries: &mut Vec<u16>) {
    match random.below(5) {
        0 => entries.push(0),
        1 => drop(entries.pop()),
        2 => lengths.push(1),
        3 => lengths.extend([u32::MAX, 1]),
        _ => {
            let position = random.below(lengths.len() + 1);
            lengths.insert(position, u32::MAX - random.below(3) as u32);
        }
    }
}

fn random_case(random: &mut Random) -> Case {
    let draft = if random.one_in(5) { broken_draft(random) } else { valid_draft(random) };
    let tree = tree_words(random, &draft);
    let many = random.pick(&[0, 1, 1, 2, 3, 5, 40]);
    let schedules: Vec<Vec<u16>> = (0..many).map(|_| random_schedule(random, tree.threads)).collect();
    let mut lengths: Vec<u32> = schedules.iter().map(|schedule| schedule.len() as u32).collect();
    let mut entries = schedules.concat();
    if random.one_in(4) {
        spoil(random, &mut lengths, &mut entries);
    }
    let room = match random.below(6) {
        0 => (ROW * lengths.len()).saturating_sub(random.between(1, ROW + 1)),
        1..=3 => ROW * lengths.len(),
        _ => ROW * lengths.len() + random.below(3 * ROW),
    };
    let rows = (0..CANARY + room + CANARY).map(|_| random.word() as u32).collect();
    Case { tree, lengths, entries, rows }
}

fn make(call: RunMany, case: &Case) -> ((u32, u32, usize), Vec<u32>) {
    let mut rows = case.rows.clone();
    let end = rows.len() - CANARY;
    let answer = call(&case.tree, &case.lengths, &case.entries, &mut rows[CANARY..end]);
    (answer, rows)
}

/// The first row that differs from the answer of a run of its schedule alone, from a fresh state and with a trace buffer of the schedule's length.
fn unlike_alone(calls: Calls, case: &Case, rows: &[u32]) -> Option<usize> {
    let fresh = StateWords::fresh();
    let mut rest = &case.entries[..];
    case.lengths.iter().zip(rows.chunks_exact(ROW)).position(|(&length, row)| {
        let (schedule, after) = rest.split_at(length as usize);
        rest = after;
        let alone = (calls.run)(&case.tree, &fresh, schedule, &mut vec![0; schedule.len()]);
        let RunReply { number, place, steps, entries, stays, root, passed, crossed, .. } = alone;
        row != [number, place, steps, entries, stays, root, passed, crossed]
    })
}

fn fail(number: usize, case: &Case, text: String) -> ! {
    println!("case {number}: {text}");
    println!("{} domains, {} threads, lengths {:?}, {} entries, room {}", case.tree.domains, case.tree.threads, case.lengths, case.entries.len(), case.rows.len() - 2 * CANARY);
    exit(1)
}

fn main() {
    let options = Options::read(100_000, 1_000_000);
    let library = library::run_many().zip(library::calls());
    let subject = if library.is_some() { "the library's call of many schedules against the step table" } else { "no library with these calls named, cases only counted" };
    println!("{subject}: {} cases, seed {}", options.count, options.seed);
    let mut random = Random::new(options.seed);
    let mut met = Met::new(&[4, 5, 6, 7, 8, 9, 16, 22, 23]);
    let mut met_in_rows = Met::new(&[11, 12]);
    for number in 0..options.count {
        let case = random_case(&mut random);
        let (answer, rows) = make(run_many, &case);
        if let Some((call, _)) = library {
            let (other, other_rows) = make(call, &case);
            if other != answer || other_rows != rows {
                fail(number, &case, format!("step table {answer:?}, library {other:?}, rows {}", if rows == other_rows { "the same" } else { "not the same" }));
            }
        }
        met.count(answer.0);
        if answer.0 == 0 {
            let written = &rows[CANARY..CANARY + ROW * case.lengths.len()];
            written.chunks_exact(ROW).for_each(|row| met_in_rows.count(row[0]));
            for calls in std::iter::once(TABLE).chain(library.map(|(_, calls)| calls)) {
                if let Some(row) = unlike_alone(calls, &case, written) {
                    fail(number, &case, format!("row {row} is not that of its schedule alone"));
                }
            }
        }
    }
    met.print();
    print!("rows, ");
    met_in_rows.print();
    conclude(met.complete() && met_in_rows.complete(), library.is_some(), &["HMCS_LIBRARY", "HMCS_CALLS"]);
}
