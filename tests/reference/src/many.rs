//! Many schedules in one call, written from document 02, request (xi).

use crate::refusals::*;
use crate::table::*;
use crate::words::TreeWords;

/// Numbers in a row: number, place, steps, entries, stays, root, passed, crossed.
pub const ROW: usize = 8;

/// The signature of the call, for the step table and the library. Returns number, place and how many rows were written.
pub type RunMany = fn(&TreeWords, &[u32], &[u16], &mut [u32]) -> (u32, u32, usize);

/// Refuses by 4 to 9 and 16, then 22, then 23. The sum is computed in 128 bits.
fn accept_many(tree: &Tree, lengths: &[u32], entries: usize, rows: usize) -> Outcome<()> {
    accept_tree(tree)?;
    refuse_if(22, lengths.iter().map(|&length| length as u128).sum::<u128>() != entries as u128)?;
    refuse_if(23, rows < lengths.len())
}

/// Runs one schedule on its own lock and discards the trace.
fn run_alone(tree: &Tree, schedule: &[u16], trace: &mut Vec<u16>) -> Outcome<Counts> {
    refuse_if(11, schedule.len() > LONGEST_SCHEDULE)?;
    accept_entries(tree, schedule.iter().copied())?;
    trace.clear();
    Ok(run(tree, &mut State::fresh(), schedule.iter().copied(), trace))
}

fn row(outcome: Outcome<Counts>) -> [u32; ROW] {
    match outcome {
        Ok(Counts { steps, entries, stays, root, passed, crossed }) => [0, 0, steps, entries, stays, root, passed, crossed],
        Err(Refusal { number, place }) => [number, place, 0, 0, 0, 0, 0, 0],
    }
}

/// Writes the rows at the front of the buffer, in the order of the schedules. A refused call leaves the buffer unchanged.
pub fn run_many(words: &TreeWords, lengths: &[u32], entries: &[u16], rows: &mut [u32]) -> (u32, u32, usize) {
    let tree = words.tree();
    if let Err(refusal) = accept_many(&tree, lengths, entries.len(), rows.len() / ROW) {
        return (refusal.number, refusal.place, 0);
    }
    let mut rest = entries;
    let mut trace = Vec::new();
    for (&length, place) in lengths.iter().zip(rows.chunks_exact_mut(ROW)) {
        let (schedule, after) = rest.split_at(length as usize);
        place.copy_from_slice(&row(run_alone(&tree, schedule, &mut trace)));
        rest = after;
    }
    (0, 0, lengths.len())
}
