//! The check of steps given by thread, kind and domain, by the step table.

use crate::calls::read_state;
use crate::refusals::{accept_counters, accept_kept, refuse_if};
use crate::table::*;
use crate::words::*;

#[repr(C)]
#[derive(Clone, Copy, PartialEq, Eq)]
pub struct StepsReply {
    pub number: u32,
    pub place: usize,
    pub checked: usize,
    pub state: StateWords,
}

pub type CheckSteps = fn(&TreeWords, &StateWords, &[u16], &[u16], &[u16]) -> StepsReply;

/// The number that refuses a named step. If none does, the state is the one after the step.
fn wrong(tree: &Tree, state: &mut State, thread: u16, kind: u16, domain: u16) -> u32 {
    if thread as usize >= tree.threads {
        return 12;
    }
    if accept_counters(tree, state, &[thread]).is_err() {
        return 19;
    }
    let before = state.clone();
    let domain_taken = domain_of(tree, state, thread as usize) as u16;
    let kind_taken = step(tree, state, thread as usize).number() as u16;
    let number = if kind_taken != kind {
        26
    } else if domain_taken != domain {
        29
    } else {
        0
    };
    if number != 0 {
        *state = before;
    }
    number
}

/// If the call is refused before the steps, the state is unchanged and nothing is checked. Otherwise it is the state before the first wrong step, or after the last step.
pub fn check_steps(words: &TreeWords, state: &StateWords, threads: &[u16], kinds: &[u16], domains: &[u16]) -> StepsReply {
    let tree = words.tree();
    let early = read_state(&tree, state).and_then(|taken| {
        accept_kept(&tree, &taken)?;
        refuse_if(30, kinds.len() != threads.len() || domains.len() != threads.len())?;
        Ok(taken)
    });
    let mut taken = match early {
        Ok(taken) => taken,
        Err(refusal) => return StepsReply { number: refusal.number, place: refusal.place as usize, checked: 0, state: *state },
    };
    for (position, ((&thread, &kind), &domain)) in threads.iter().zip(kinds).zip(domains).enumerate() {
        let number = wrong(&tree, &mut taken, thread, kind, domain);
        if number != 0 {
            return StepsReply { number, place: position, checked: position, state: StateWords::of(&taken) };
        }
    }
    StepsReply { number: 0, place: 0, checked: threads.len(), state: StateWords::of(&taken) }
}
