//! Document 01's standing ungranted and allowances, with document 02's additions for a ticket root.

use crate::refusals::leaves;
use crate::table::*;

/// The members of a step's domain that the step makes ungranted or granted. From fresh, a step grants at most one. In a given state, a raise may grant several.
#[derive(Debug, Default, PartialEq, Eq)]
pub struct Standing {
    pub begins: Option<usize>,
    pub ends: Vec<usize>,
}

/// What the thread's next step does to standing ungranted in its domain.
pub fn standing(tree: &Tree, state: &State, thread: usize) -> Standing {
    let domain = domain_of(tree, state, thread);
    let begins = |after_another: bool| Standing { begins: after_another.then(|| tree.record(thread, domain)), ends: Vec::new() };
    match state.places[thread] {
        Place::Swap(_) => begins(state.tails[domain].is_some()),
        Place::Grant(_, to, _) => Standing { begins: None, ends: vec![to as usize] },
        Place::Idle | Place::Draw if tree.is_ticket(domain) => begins(state.ticket != state.grant),
        Place::Raise => Standing { begins: None, ends: shown(tree, state, state.grant.wrapping_add(1)) },
        _ => Standing::default(),
    }
}

/// The records that have the grant as their ticket and are watched by some thread.
fn shown(tree: &Tree, state: &State, grant: u16) -> Vec<usize> {
    let watches = |thread: usize, record: usize| state.places[thread] == Place::Watch && tree.record(thread, ROOT) == record;
    let is_shown = |&record: &usize| state.statuses[record] == grant as u64 && (0..tree.threads).any(|thread| watches(thread, record));
    (0..RECORD_ROOM).filter(is_shown).collect()
}

/// The allowance of a member: 1 for a thread, the threshold for a leaf, otherwise the threshold times the largest allowance of a child domain.
pub fn allowance(tree: &Tree, member: usize) -> u128 {
    if member < THREAD_ROOM {
        return 1;
    }
    let domain = member - THREAD_ROOM;
    let children = (1..tree.domains).filter(|&child| tree.parent(child) == domain);
    let largest = children.map(|child| allowance(tree, domain_record(child))).max();
    tree.thresholds[domain] as u128 * if leaves(tree)[domain] { 1 } else { largest.unwrap_or(0) }
}
