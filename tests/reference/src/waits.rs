//! A run with waits, written from document 02, request (vi), and a run that continues attempts under way.

use crate::calls::{read_state, run_reply};
use crate::refusals::*;
use crate::table::*;
use crate::words::*;

/// Numbers in a row: attempts, total, largest, numerator and denominator of the mean.
pub const ROW: usize = 5;

/// What the run returns, and how many rows were written.
#[repr(C)]
#[derive(Clone, Copy, Debug, PartialEq, Eq)]
pub struct WaitsReply {
    pub number: u32,
    pub place: u32,
    pub steps: u32,
    pub entries: u32,
    pub stays: u32,
    pub root: u32,
    pub passed: u32,
    pub crossed: u32,
    pub rows: u32,
    pub state: StateWords,
}

impl WaitsReply {
    fn of(run: RunReply, rows: u32) -> WaitsReply {
        let RunReply { number, place, steps, entries, stays, root, passed, crossed, state } = run;
        WaitsReply { number, place, steps, entries, stays, root, passed, crossed, rows, state }
    }

    /// The part that a plain run returns.
    pub fn run(self) -> RunReply {
        let WaitsReply { number, place, steps, entries, stays, root, passed, crossed, rows: _, state } = self;
        RunReply { number, place, steps, entries, stays, root, passed, crossed, state }
    }
}

/// For each thread, 0 if no attempt is under way, otherwise one more than the other threads' entries since it began.
pub type UnderWay = [u64; 256];

/// The signature of the call, for the step table and the library.
pub type RunWaits = fn(&TreeWords, &StateWords, &[u16], &mut [u16], &mut [u64]) -> WaitsReply;

/// The same for the continued call.
pub type RunWaitsOn = fn(&TreeWords, &StateWords, &[u16], &mut [u16], &mut [u64], &mut UnderWay) -> WaitsReply;

/// The facts about a step that waits depend on.
#[derive(Clone, Copy)]
pub struct Seen {
    pub thread: u16,
    pub begins: bool,
    pub enters: bool,
}

/// An attempt begins with the Swap at home. If home is a ticket root, it begins with the draw, from Idle or Draw.
pub fn begins(tree: &Tree, place: Place, thread: usize) -> bool {
    let home = tree.home(thread);
    match place {
        Place::Swap(domain) => domain as usize == home,
        Place::Idle | Place::Draw => tree.is_ticket(home),
        _ => false,
    }
}

/// The sums of one thread, or of all threads together.
#[derive(Clone, Copy, Default)]
struct Sum {
    attempts: u64,
    total: u64,
    largest: u64,
}

impl Sum {
    fn add(&mut self, wait: u64) {
        self.attempts += 1;
        self.total += wait;
        self.largest = self.largest.max(wait);
    }

    /// The mean is reduced to lowest terms by dividing by each common divisor.
    fn row(self) -> [u64; ROW] {
        let (mut numerator, mut denominator) = (self.total, self.attempts);
        if numerator == 0 {
            denominator = denominator.min(1);
        }
        let mut divisor = 2;
        while divisor <= numerator.min(denominator) {
            if numerator % divisor == 0 && denominator % divisor == 0 {
                numerator /= divisor;
                denominator /= divisor;
            } else {
                divisor += 1;
            }
        }
        [self.attempts, self.total, self.largest, numerator, denominator]
    }
}

/// Takes the steps. Each attempt under way is stored as the number of entries before it began, which is below 0 for an attempt from before the run.
fn take(tree: &Tree, state: &mut State, schedule: &[u16], trace: &mut [u16], sums: &mut [Sum], under_way: &mut UnderWay) -> Counts {
    let mut counts = Counts::default();
    let mut began: Vec<Option<u64>> = under_way[..tree.threads].iter().map(|&number| (number != 0).then(|| 1u64.wrapping_sub(number))).collect();
    for &thread in schedule {
        let at = thread as usize;
        let place = state.places[at];
        let kind = step(tree, state, at);
        if begins(tree, place, at) {
            began[at] = Some(counts.entries as u64);
        }
        if kind.is_entry() {
            trace[counts.entries as usize] = thread;
            if let Some(before) = began[at].take() {
                sums[at].add((counts.entries as u64).wrapping_sub(before));
            }
        }
        counts.count(kind);
    }
    for (number, before) in under_way.iter_mut().zip(&began) {
        *number = before.map_or(0, |before| (counts.entries as u64).wrapping_sub(before) + 1);
    }
    counts
}

fn write(sums: &[Sum], rows: &mut [u64]) {
    let mut all = Sum::default();
    for (sum, row) in sums.iter().zip(rows.chunks_exact_mut(ROW)) {
        row.copy_from_slice(&sum.row());
        all.attempts += sum.attempts;
        all.total = all.total.saturating_add(sum.total);
        all.largest = all.largest.max(sum.largest);
    }
    rows[ROW * sums.len()..][..ROW].copy_from_slice(&all.row());
}

/// Refuses by 27: a number is above 2^63, or is not 0 after the last thread.
fn accept_under_way(tree: &Tree, under_way: &UnderWay) -> Outcome<()> {
    refuse_first(27, 0..under_way.len(), |thread| under_way[thread] > 1 << 63 || (thread >= tree.threads && under_way[thread] != 0))
}

/// A refused call leaves state, trace, rows and numbers unchanged.
pub fn run_waits_on(words: &TreeWords, state: &StateWords, schedule: &[u16], trace: &mut [u16], rows: &mut [u64], under_way: &mut UnderWay) -> WaitsReply {
    let tree = words.tree();
    let outcome = read_state(&tree, state).and_then(|mut taken| {
        accept_before_counters(&tree, &taken, schedule, trace)?;
        refuse_if(18, rows.len() / ROW < tree.threads + 1)?;
        accept_under_way(&tree, under_way)?;
        accept_counters(&tree, &taken, schedule)?;
        let mut sums = vec![Sum::default(); tree.threads];
        let counts = take(&tree, &mut taken, schedule, trace, &mut sums, under_way);
        write(&sums, rows);
        Ok((counts, StateWords::of(&taken)))
    });
    let rows = if outcome.is_ok() { tree.threads as u32 + 1 } else { 0 };
    WaitsReply::of(run_reply(outcome, state), rows)
}

/// Counts attempts that begin and finish within the run: none is under way before it.
pub fn run_waits(words: &TreeWords, state: &StateWords, schedule: &[u16], trace: &mut [u16], rows: &mut [u64]) -> WaitsReply {
    run_waits_on(words, state, schedule, trace, rows, &mut [0; 256])
}

/// The steps of a schedule from a state, as waits see them.
pub fn seen(tree: &Tree, state: &State, schedule: &[u16]) -> Vec<Seen> {
    let mut state = state.clone();
    schedule
        .iter()
        .map(|&thread| {
            let begins = begins(tree, state.places[thread as usize], thread as usize);
            let enters = step(tree, &mut state, thread as usize).is_entry();
            Seen { thread, begins, enters }
        })
        .collect()
}

/// A thread's waits, each searched from the beginning of its attempt: the other threads' entries up to its own next one.
pub fn waits(steps: &[Seen], thread: u16) -> Vec<u64> {
    (0..steps.len()).filter(|&at| steps[at].thread == thread && steps[at].begins).filter_map(|from| Some(others(steps, thread, from, own_entry(steps, thread, from)?))).collect()
}

/// The same from an attempt under way, whose wait comes first if it finishes before another begins. Also the number of the attempt under way after the steps,
/// searched from the thread's last beginning or entry.
pub fn waits_from(steps: &[Seen], thread: u16, number: u64) -> (Vec<u64>, u64) {
    let own = |step: &&Seen| step.thread == thread && (step.begins || step.enters);
    let first = (number != 0).then(|| steps.iter().find(own)).flatten().filter(|step| !step.begins);
    let from_before = first.and_then(|_| Some(number - 1 + others(steps, thread, 0, own_entry(steps, thread, 0)?)));
    let last = steps.iter().rposition(|step| own(&step));
    let left = match last {
        None if number == 0 => 0,
        None => number + others(steps, thread, 0, steps.len()),
        Some(at) if steps[at].enters => 0,
        Some(at) => 1 + others(steps, thread, at, steps.len()),
    };
    (from_before.into_iter().chain(waits(steps, thread)).collect(), left)
}

/// The step at which the thread enters next, from a given step on.
fn own_entry(steps: &[Seen], thread: u16, from: usize) -> Option<usize> {
    Some(from + steps[from..].iter().position(|step| step.thread == thread && step.enters)?)
}

/// Other threads' entries between two steps.
fn others(steps: &[Seen], thread: u16, from: usize, end: usize) -> u64 {
    steps[from..end].iter().filter(|step| step.thread != thread && step.enters).count() as u64
}
