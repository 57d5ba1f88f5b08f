//! A run that reports the kind and domain of each step, by the step table, and the check of a saved state.

use crate::calls::{read_state, run_reply};
use crate::refusals::{accept_before_counters, accept_counters, accept_kept, refuse_if};
use crate::table::*;
use crate::words::*;

/// Numbers in a row: a step's kind and its domain.
pub const ROW: usize = 2;

#[repr(C)]
#[derive(Clone, Copy, PartialEq, Eq)]
pub struct KindsReply {
    pub number: u32,
    pub place: u32,
    pub steps: u32,
    pub entries: u32,
    pub stays: u32,
    pub root: u32,
    pub passed: u32,
    pub crossed: u32,
    pub rows: u32,
    pub state: StateWords,
}

impl KindsReply {
    fn of(reply: RunReply, rows: u32) -> Self {
        let RunReply { number, place, steps, entries, stays, root, passed, crossed, state } = reply;
        KindsReply { number, place, steps, entries, stays, root, passed, crossed, rows, state }
    }

    pub fn run(self) -> RunReply {
        let KindsReply { number, place, steps, entries, stays, root, passed, crossed, rows: _, state } = self;
        RunReply { number, place, steps, entries, stays, root, passed, crossed, state }
    }
}

pub type RunKinds = fn(&TreeWords, &StateWords, &[u16], &mut [u16], &mut [u16]) -> KindsReply;

/// Takes the steps and writes the kind and domain of each.
fn take(tree: &Tree, state: &mut State, schedule: &[u16], trace: &mut [u16], rows: &mut [u16]) -> Counts {
    let mut counts = Counts::default();
    for (&thread, row) in schedule.iter().zip(rows.chunks_exact_mut(ROW)) {
        let domain = domain_of(tree, state, thread as usize);
        let kind = step(tree, state, thread as usize);
        if kind.is_entry() {
            trace[counts.entries as usize] = thread;
        }
        counts.count(kind);
        row.copy_from_slice(&[kind.number() as u16, domain as u16]);
    }
    counts
}

/// A refused call leaves state, trace and rows unchanged.
pub fn run_kinds(words: &TreeWords, state: &StateWords, schedule: &[u16], trace: &mut [u16], rows: &mut [u16]) -> KindsReply {
    let tree = words.tree();
    let outcome = read_state(&tree, state).and_then(|mut taken| {
        accept_before_counters(&tree, &taken, schedule, trace)?;
        refuse_if(28, rows.len() / ROW < schedule.len())?;
        accept_counters(&tree, &taken, schedule)?;
        let counts = take(&tree, &mut taken, schedule, trace, rows);
        Ok((counts, StateWords::of(&taken)))
    });
    let rows = if outcome.is_ok() { schedule.len() as u32 } else { 0 };
    KindsReply::of(run_reply(outcome, state), rows)
}

pub type CheckState = fn(&TreeWords, &StateWords) -> (u32, u32);

/// Refuses the tree by 4 to 9 and 16, then the state by 10.
pub fn check_state(words: &TreeWords, state: &StateWords) -> (u32, u32) {
    let tree = words.tree();
    match read_state(&tree, state).and_then(|state| accept_kept(&tree, &state)) {
        Ok(()) => (0, 0),
        Err(refusal) => (refusal.number, refusal.place),
    }
}
