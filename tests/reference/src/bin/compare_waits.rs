//! Compares the library's runs with waits, from no attempt under way and from some, with the step table's. Rows and numbers are also compared with waits that are
//! searched from the beginning of each attempt. Then the same schedule is cut at random positions, and each piece continues where the one before it ended. Without
//! the library it only counts what the cases cover.

use reference::library;
use reference::met::Met;
use reference::options::{conclude, Options};
use reference::random::Random;
use reference::random_file::{broken_draft, valid_draft};
use reference::random_state::{late_state, random_state, spoil, tree_words};
use reference::refusals::{accept_tree, LONGEST_SCHEDULE};
use reference::state_met::{Outcome, StateMet};
use reference::table::State;
use reference::waits::{run_waits, run_waits_on, seen, waits, waits_from, RunWaits, RunWaitsOn, UnderWay, WaitsReply, ROW};
use reference::words::*;
use std::process::exit;

const CANARY: usize = 16;

/// The input of the calls. Trace and rows are between canaries.
struct Case {
    tree: TreeWords,
    state: StateWords,
    from_fresh: bool,
    schedule: Vec<u16>,
    trace: Vec<u16>,
    rows: Vec<u64>,
    under_way: UnderWay,
    cuts: Vec<usize>,
}

/// Sometimes too long, sometimes with an entry that names no thread. Often a few threads in turn, so that they wait for one another.
fn random_schedule(random: &mut Random, threads: u32) -> Vec<u16> {
    let length = match random.below(2_000) {
        0..=1 => LONGEST_SCHEDULE + random.below(2),
        2..=100 => 0,
        101..=300 => random.between(900, 3_200),
        _ => random.between(1, 300),
    };
    let few = random.between(1, threads.clamp(1, 256) as usize);
    let mut schedule: Vec<u16> = (0..length).map(|_| random.below(few) as u16).collect();
    if length > 0 && random.one_in(10) {
        let position = random.below(length);
        schedule[position] = random.pick(&[threads as u16, 256, 65_535]);
    }
    schedule
}

/// The state for a schedule of this length, and whether its words are fresh.
fn case_state(random: &mut Random, words: &TreeWords, length: usize) -> (StateWords, bool) {
    let tree = words.tree();
    let accepted = accept_tree(&tree).is_ok();
    if accepted && length > 10_000 {
        return (late_state(random, &tree), true);
    }
    if !accepted || random.one_in(3) {
        return (StateWords::of(&State::fresh_at(&tree, random.pick(&[0, 7, 65_535]))), true);
    }
    let mut state = random_state(random, &tree);
    if random.one_in(8) {
        spoil(random, &tree, &mut state);
    }
    (state, false)
}

/// Numbers of attempts under way for some of the threads, sometimes with one that is not allowed.
fn random_numbers(random: &mut Random, threads: usize) -> UnderWay {
    let mut numbers = [0; 256];
    let some = random.below(3);
    for number in numbers.iter_mut().take(threads).filter(|_| some > 0) {
        *number = match random.below(6) {
            0..=1 => 0,
            2..=4 => random.between(1, 40) as u64,
            _ => random.word() >> random.between(1, 63),
        };
        if some == 2 && random.one_in(9) {
            *number = 1 << 63;
        }
    }
    if random.one_in(12) {
        numbers[random.below(256)] = random.pick(&[1, (1 << 63) + 1, u64::MAX]);
    }
    numbers
}

/// Up to four positions of a schedule, in order.
fn random_cuts(random: &mut Random, length: usize) -> Vec<usize> {
    let mut cuts: Vec<usize> = (0..random.between(1, 4)).map(|_| random.below(length + 1)).collect();
    cuts.sort_unstable();
    cuts
}

fn random_case(random: &mut Random) -> Case {
    let draft = if random.one_in(8) { broken_draft(random) } else { valid_draft(random) };
    let tree = tree_words(random, &draft);
    let schedule = random_schedule(random, tree.threads);
    let (state, from_fresh) = case_state(random, &tree, schedule.len());
    let room = match random.below(8) {
        0 => schedule.len().saturating_sub(1),
        _ => schedule.len() + random.below(3),
    };
    let whole = ROW * (tree.threads.min(300) as usize + 1);
    let row_room = match random.below(6) {
        0 => whole.saturating_sub(random.between(1, ROW + 1)),
        1..=3 => whole,
        _ => whole + random.below(3 * ROW),
    };
    let trace = (0..CANARY + room + CANARY).map(|_| random.below(65_536) as u16).collect();
    let rows = (0..CANARY + row_room + CANARY).map(|_| random.word()).collect();
    let under_way = random_numbers(random, tree.threads.min(256) as usize);
    let cuts = random_cuts(random, schedule.len());
    Case { tree, state, from_fresh, schedule, trace, rows, under_way, cuts }
}

fn make(call: RunWaits, case: &Case) -> (WaitsReply, Vec<u16>, Vec<u64>) {
    let (mut trace, mut rows) = (case.trace.clone(), case.rows.clone());
    let (trace_end, rows_end) = (trace.len() - CANARY, rows.len() - CANARY);
    let reply = call(&case.tree, &case.state, &case.schedule, &mut trace[CANARY..trace_end], &mut rows[CANARY..rows_end]);
    (reply, trace, rows)
}

fn make_on(call: RunWaitsOn, case: &Case) -> (WaitsReply, Vec<u16>, Vec<u64>, UnderWay) {
    let (mut trace, mut rows, mut numbers) = (case.trace.clone(), case.rows.clone(), case.under_way);
    let (trace_end, rows_end) = (trace.len() - CANARY, rows.len() - CANARY);
    let reply = call(&case.tree, &case.state, &case.schedule, &mut trace[CANARY..trace_end], &mut rows[CANARY..rows_end], &mut numbers);
    (reply, trace, rows, numbers)
}

/// Runs the pieces of the schedule one after another. Returns the sums of their rows, and the numbers and the state after the last piece. None if a piece is refused.
fn in_pieces(call: RunWaitsOn, case: &Case) -> Option<(Vec<[u128; 3]>, UnderWay, StateWords)> {
    let threads = case.tree.threads as usize;
    let (mut numbers, mut state, mut from) = (case.under_way, case.state, 0);
    let mut sums = vec![[0; 3]; threads + 1];
    for end in case.cuts.iter().copied().chain([case.schedule.len()]) {
        let piece = &case.schedule[from..end];
        let (mut trace, mut rows) = (vec![0; piece.len()], vec![0; ROW * (threads + 1)]);
        let reply = call(&case.tree, &state, piece, &mut trace, &mut rows, &mut numbers);
        if reply.number != 0 {
            return None;
        }
        for (sum, row) in sums.iter_mut().zip(rows.chunks_exact(ROW)) {
            *sum = [sum[0] + row[0] as u128, sum[1] + row[1] as u128, sum[2].max(row[2] as u128)];
        }
        state = reply.state;
        from = end;
    }
    Some((sums, numbers, state))
}

/// What is wrong with the rows and the numbers of an accepted continued call, judged by the steps themselves.
fn wrong_row_on(case: &Case, rows: &[u64], numbers: &UnderWay) -> Option<String> {
    let tree = case.tree.tree();
    let steps = seen(&tree, &case.state.state()?, &case.schedule);
    let mut all = Vec::new();
    for thread in 0..tree.threads {
        let (waits, left) = waits_from(&steps, thread as u16, case.under_way[thread]);
        if !unlike(&waits, &rows[ROW * thread..][..ROW]).is_empty() || numbers[thread] != left {
            return Some(format!("row {thread} is not that of the waits {waits:?}, or the number {} is not {left}", numbers[thread]));
        }
        all.extend(waits);
    }
    let last = &rows[ROW * tree.threads..][..ROW];
    let zeros = numbers[tree.threads..].iter().all(|&number| number == 0);
    (!unlike(&all, last).is_empty() || !zeros).then(|| "the last row is not that of all waits, or a number after the last thread is not 0".to_string())
}

/// What is wrong with the pieces of an accepted call, compared with the whole call.
fn wrong_pieces(call: RunWaitsOn, case: &Case, reply: &WaitsReply, rows: &[u64], numbers: &UnderWay) -> Option<String> {
    let (sums, left, state) = in_pieces(call, case)?;
    let cut = |total: u128| total.min(u64::MAX as u128);
    let same = sums.iter().zip(rows.chunks_exact(ROW)).all(|(sum, row)| [sum[0], cut(sum[1]), sum[2]] == [row[0] as u128, row[1] as u128, row[2] as u128]);
    (!same || left != *numbers || state != reply.state).then(|| format!("pieces cut at {:?} do not give what the whole run gives", case.cuts))
}

/// What is wrong with the rows of an accepted call, judged by the steps themselves.
fn wrong_row(case: &Case, rows: &[u64]) -> Option<String> {
    let tree = case.tree.tree();
    let steps = seen(&tree, &case.state.state()?, &case.schedule);
    let mut all = Vec::new();
    for thread in 0..tree.threads {
        let waits = waits(&steps, thread as u16);
        let entries = steps.iter().filter(|step| step.thread as usize == thread && step.enters).count();
        if !unlike(&waits, &rows[ROW * thread..][..ROW]).is_empty() {
            return Some(format!("row {thread} is not that of the waits {waits:?}"));
        }
        if entries != waits.len() && (case.from_fresh || entries != waits.len() + 1) {
            return Some(format!("thread {thread} has {entries} entries and {} attempts", waits.len()));
        }
        all.extend(waits);
    }
    (!unlike(&all, &rows[ROW * tree.threads..][..ROW]).is_empty()).then(|| "the last row is not that of all waits".to_string())
}

/// The columns that do not match these waits. A total that needs more than 64 bits is capped, and the mean is computed from the capped total.
fn unlike(waits: &[u64], row: &[u64]) -> Vec<usize> {
    let total = waits.iter().map(|&wait| wait as u128).sum::<u128>().min(u64::MAX as u128);
    let (attempts, numerator, denominator) = (waits.len() as u64, row[3], row[4]);
    let in_lowest_terms = (2..=numerator.min(denominator)).all(|d| numerator % d != 0 || denominator % d != 0);
    let mean = match (attempts, total) {
        (0, _) => numerator == 0 && denominator == 0,
        (_, 0) => numerator == 0 && denominator == 1,
        _ => numerator as u128 * attempts as u128 == total * denominator as u128 && in_lowest_terms,
    };
    let right = [row[0] == attempts, row[1] as u128 == total, row[2] == waits.iter().copied().max().unwrap_or(0), mean];
    (0..4).filter(|&column| !right[column]).collect()
}

fn fail(number: usize, case: &Case, text: String) -> ! {
    println!("case {number}: {text}");
    println!("{} domains, {} threads, ticket root {}, schedule {:?}", case.tree.domains, case.tree.threads, case.tree.ticket_root, case.schedule);
    exit(1)
}

/// Counts the outcomes of the continued calls.
#[derive(Default)]
struct WentOn {
    calls: usize,
    from_before: usize,
    left: usize,
    cut: usize,
    pieces: usize,
}

/// The continued call: the library's answer must equal the step table's and agree with the steps, as a whole and in pieces.
fn compare_on(number: usize, case: &Case, library: Option<RunWaitsOn>, met: &mut Met, went_on: &mut WentOn) {
    let (reply, trace, rows, numbers) = make_on(run_waits_on, case);
    if library.is_some_and(|call| make_on(call, case) != (reply, trace, rows.clone(), numbers)) {
        fail(number, case, format!("step table {}, and the library says something else where it goes on", reply.number));
    }
    met.count(reply.number);
    if reply.number != 0 {
        return;
    }
    let written = &rows[CANARY..];
    let subject = library.unwrap_or(run_waits_on);
    if let Some(text) = wrong_row_on(case, written, &numbers).or_else(|| wrong_pieces(subject, case, &reply, written, &numbers)) {
        fail(number, case, text);
    }
    went_on.calls += 1;
    went_on.from_before += (case.under_way != [0; 256]) as usize;
    went_on.left += (numbers != [0; 256]) as usize;
    went_on.cut += (written[ROW * case.tree.threads as usize + 1] == u64::MAX) as usize;
    went_on.pieces += in_pieces(run_waits_on, case).is_some() as usize;
}

/// Counts what the rows of all threads contained.
#[derive(Default)]
struct Waited {
    attempts: u64,
    entries: u64,
    reduced: usize,
}

/// The call from no attempt under way: the library's answer must equal the step table's, and the rows must match the steps. Returns the answer.
fn compare_plain(number: usize, case: &Case, waited: &mut Waited) -> WaitsReply {
    let (reply, trace, rows) = make(run_waits, case);
    if let Some(call) = library::run_waits() {
        let (other, other_trace, other_rows) = make(call, case);
        if other != reply || other_trace != trace || other_rows != rows {
            let same = if rows == other_rows { "the same" } else { "not the same" };
            fail(number, case, format!("step table {}, library {}, rows {same}", reply.number, other.number));
        }
    }
    if reply.number == 0 {
        let written = &rows[CANARY..];
        if let Some(text) = wrong_row(case, written) {
            fail(number, case, text);
        }
        let last = &written[ROW * case.tree.threads as usize..][..ROW];
        waited.attempts += last[0];
        waited.entries += last[1];
        waited.reduced += (last[4] != last[0] && last[1] != 0) as usize;
    }
    reply
}

fn main() {
    let options = Options::read(100_000, 1_000_000);
    let library = library::run_waits_on();
    let subject = if library.is_some() {
        "the library's runs with waits against the step table"
    } else {
        "no library with these calls named, cases only counted"
    };
    println!("{subject}: {} cases, seed {}", options.count, options.seed);
    let mut random = Random::new(options.seed);
    let mut met = Met::new(&[4, 5, 6, 7, 8, 9, 16, 10, 11, 12, 13, 18, 19]);
    let mut on_met = Met::new(&[4, 5, 6, 7, 8, 9, 16, 10, 11, 12, 13, 18, 27, 19]);
    let mut state_met = StateMet::default();
    let (mut waited, mut went_on) = (Waited::default(), WentOn::default());
    for number in 0..options.count {
        let case = random_case(&mut random);
        let reply = compare_plain(number, &case, &mut waited);
        compare_on(number, &case, library, &mut on_met, &mut went_on);
        met.count(reply.number);
        state_met.count(&case.tree, &case.state, Outcome { number: reply.number, place: reply.place, schedule: &case.schedule });
    }
    met.print();
    state_met.print();
    let Waited { attempts, entries, reduced } = waited;
    println!("{attempts} attempts, of other threads' entries {entries}, means that reduce {reduced}");
    on_met.print();
    let WentOn { calls, from_before, left, cut, pieces } = went_on;
    println!("going on: {calls} calls, {from_before} from attempts under way, {left} that left some, {cut} with a total that is cut, {pieces} in pieces too");
    let all_met = met.complete() && on_met.complete() && state_met.complete();
    conclude(all_met && entries > 0 && [reduced, from_before, left, cut, pieces].iter().all(|&times| times > 0), library.is_some(), &["HMCS_LIBRARY", "HMCS_CALLS"]);
}
