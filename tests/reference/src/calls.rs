//! The calls on words, by the step table: the fresh call, the single step, the step in place, the run and the check of a state.

use crate::kinds::{check_state, run_kinds, CheckState, RunKinds};
use crate::named_steps::{check_steps, CheckSteps};
use crate::refusals::*;
use crate::table::*;
use crate::words::*;

/// The calls of one program, the step table's or the library's.
#[derive(Clone, Copy)]
pub struct Calls {
    pub fresh: fn(&TreeWords, u16) -> Reply,
    pub fresh_in_place: fn(&TreeWords, &mut StateWords, u16) -> (u32, u32),
    pub step: fn(&TreeWords, &StateWords, u16) -> StepReply,
    pub step_in_place: fn(&TreeWords, &mut StateWords, u16) -> StepAnswer,
    pub run: fn(&TreeWords, &StateWords, &[u16], &mut [u16]) -> RunReply,
    pub run_kinds: RunKinds,
    pub check_state: CheckState,
    pub check_steps: CheckSteps,
}

pub const TABLE: Calls = Calls { fresh, fresh_in_place, step: step_words, step_in_place, run: run_words, run_kinds, check_state, check_steps };

fn number_and_place<T>(outcome: &Outcome<T>) -> (u32, u32) {
    match outcome {
        Ok(_) => (0, 0),
        Err(refusal) => (refusal.number, refusal.place),
    }
}

/// Words that are not a state are refused by 10, once the tree is accepted.
pub fn read_state(tree: &Tree, words: &StateWords) -> Outcome<State> {
    accept_tree(tree)?;
    match words.state() {
        Some(state) => Ok(state),
        None => refuse(10, 0),
    }
}

fn fresh(tree: &TreeWords, start: u16) -> Reply {
    let (outcome, state) = fresh_lock(&tree.tree(), start);
    let (number, place) = number_and_place(&outcome);
    Reply { number, place, state: StateWords::of(&state) }
}

/// Writes the fresh words if the tree is accepted. A refused call leaves the words unchanged.
fn fresh_in_place(tree: &TreeWords, words: &mut StateWords, start: u16) -> (u32, u32) {
    let reply = fresh(tree, start);
    if reply.number == 0 {
        *words = reply.state;
    }
    (reply.number, reply.place)
}

/// A refused step leaves the words unchanged and returns kind 0 and domain 0.
fn step_in_place(tree: &TreeWords, words: &mut StateWords, thread: u16) -> StepAnswer {
    let tree = tree.tree();
    let outcome = read_state(&tree, words).and_then(|mut state| {
        let before = state.clone();
        let kind = step_lock(&tree, &mut state, thread)?;
        *words = StateWords::of(&state);
        Ok((kind.number(), domain_of(&tree, &before, thread as usize) as u32))
    });
    let (number, place) = number_and_place(&outcome);
    let (kind, domain) = outcome.unwrap_or((0, 0));
    StepAnswer { number, place, kind, domain }
}

fn step_words(tree: &TreeWords, words: &StateWords, thread: u16) -> StepReply {
    let mut state = *words;
    let answer = step_in_place(tree, &mut state, thread);
    StepReply { answer, state }
}

fn run_words(tree: &TreeWords, words: &StateWords, schedule: &[u16], trace: &mut [u16]) -> RunReply {
    let tree = tree.tree();
    let outcome = read_state(&tree, words).and_then(|mut state| {
        let counts = run_lock(&tree, &mut state, schedule, trace)?;
        Ok((counts, StateWords::of(&state)))
    });
    run_reply(outcome, words)
}

/// What a run returns. If the run is refused, the counts are zero and the words unchanged.
pub fn run_reply(outcome: Outcome<(Counts, StateWords)>, words: &StateWords) -> RunReply {
    let (number, place) = number_and_place(&outcome);
    let (counts, state) = outcome.unwrap_or((Counts::default(), *words));
    let Counts { steps, entries, stays, root, passed, crossed } = counts;
    RunReply { number, place, steps, entries, stays, root, passed, crossed, state }
}
