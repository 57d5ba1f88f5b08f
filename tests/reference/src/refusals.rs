//! Refusals 4 to 13 of document 01 and 16 and 19 of document 02, with document 02's additions to 10 for a ticket root and for counters. Also the fresh call, the single step
//! and the run that use them.

use crate::counters::{first_past, MOST_COUNTED};
use crate::table::*;

pub const LONGEST_SCHEDULE: usize = 65_536;

#[derive(Clone, Copy, Debug, PartialEq, Eq)]
pub struct Refusal {
    pub number: u32,
    pub place: u32,
}

pub type Outcome<T> = Result<T, Refusal>;

pub fn refuse<T>(number: u32, place: usize) -> Outcome<T> {
    Err(Refusal { number, place: place as u32 })
}

/// Refuses with the lowest place for which the test is true.
pub fn refuse_first(number: u32, mut places: impl Iterator<Item = usize>, bad: impl Fn(usize) -> bool) -> Outcome<()> {
    match places.find(|&place| bad(place)) {
        Some(place) => refuse(number, place),
        None => Ok(()),
    }
}

pub fn refuse_if(number: u32, bad: bool) -> Outcome<()> {
    if bad {
        refuse(number, 0)
    } else {
        Ok(())
    }
}

/// Checks 4 to 9 and 16, each over the whole tree before the next.
pub fn accept_tree(tree: &Tree) -> Outcome<()> {
    refuse_if(4, tree.domains == 0 || tree.domains > DOMAIN_ROOM)?;
    refuse_if(5, tree.threads == 0 || tree.threads > THREAD_ROOM)?;
    refuse_first(6, 1..tree.domains, |domain| tree.parent(domain) >= domain)?;
    let levels = levels(tree);
    refuse_first(7, 0..tree.domains, |domain| levels[domain] > DEEPEST_LEVEL)?;
    refuse_first(8, 1..tree.domains, |domain| tree.thresholds[domain] == 0)?;
    let leaves = leaves(tree);
    refuse_first(9, 0..tree.threads, |thread| tree.home(thread) >= tree.domains || !leaves[tree.home(thread)])?;
    let occupied = occupied(tree);
    refuse_first(16, 0..tree.domains, |domain| !occupied[domain])
}

/// Which domains have a thread under them: every home and all domains above it.
pub fn occupied(tree: &Tree) -> [bool; DOMAIN_ROOM] {
    let mut occupied = [false; DOMAIN_ROOM];
    for thread in 0..tree.threads {
        let mut domain = tree.home(thread);
        while !occupied[domain] {
            occupied[domain] = true;
            if domain != ROOT {
                domain = tree.parent(domain);
            }
        }
    }
    occupied
}

/// The level of each domain. The root has level 1, and every parent has a lower number than its child.
pub fn levels(tree: &Tree) -> [u8; DOMAIN_ROOM] {
    let mut levels = [1; DOMAIN_ROOM];
    for domain in 1..tree.domains {
        levels[domain] = levels[tree.parent(domain)] + 1;
    }
    levels
}

/// Which domains have no child domains.
pub fn leaves(tree: &Tree) -> [bool; DOMAIN_ROOM] {
    let mut leaves = [true; DOMAIN_ROOM];
    for domain in 1..tree.domains {
        leaves[tree.parent(domain)] = false;
    }
    leaves
}

/// The domain that the record's owner is a member of, if the record has an owner.
fn domain_of_record(tree: &Tree, record: usize) -> Option<usize> {
    if record < tree.threads {
        Some(tree.home(record))
    } else if record > domain_record(ROOT) && record < domain_record(tree.domains) {
        Some(tree.parent(record - THREAD_ROOM))
    } else {
        None
    }
}

fn belongs(tree: &Tree, record: u16, domain: usize) -> bool {
    domain_of_record(tree, record as usize) == Some(domain)
}

fn on_path(tree: &Tree, thread: usize, domain: usize) -> bool {
    let mut above = tree.home(thread);
    while above != domain && above != ROOT {
        above = tree.parent(above);
    }
    above == domain
}

fn tail_well_formed(tree: &Tree, state: &State, domain: usize) -> bool {
    match state.tails[domain] {
        None => true,
        Some(record) => domain < tree.domains && belongs(tree, record, domain),
    }
}

fn record_well_formed(tree: &Tree, state: &State, record: usize) -> bool {
    match (domain_of_record(tree, record), state.nexts[record]) {
        (Some(domain), Some(next)) => belongs(tree, next, domain),
        (Some(_), None) => true,
        (None, next) => next.is_none() && state.statuses[record] == 0,
    }
}

fn place_well_formed(tree: &Tree, state: &State, thread: usize) -> bool {
    if thread >= tree.threads {
        return state.places[thread] == Place::Idle;
    }
    match state.places[thread] {
        Place::Idle | Place::Inside => true,
        Place::Check(domain) => domain as usize != ROOT && on_path(tree, thread, domain as usize),
        Place::Prep(domain) | Place::Swap(domain) | Place::Wait(domain) | Place::Help(domain) | Place::Cas(domain) | Place::Linger(domain) => {
            on_path(tree, thread, domain as usize)
        }
        Place::Link(domain, record) | Place::Grant(domain, record, _) => {
            on_path(tree, thread, domain as usize) && belongs(tree, record, domain as usize)
        }
        Place::Draw | Place::Watch | Place::Raise => true,
    }
}

/// Whether a place is at a domain's queue.
fn is_queue_place(place: Place) -> bool {
    !matches!(place, Place::Idle | Place::Inside | Place::Draw | Place::Watch | Place::Raise)
}

fn ticket_place_at_a_queue_root(tree: &Tree, state: &State) -> bool {
    !tree.ticket_root && state.places.iter().any(|place| matches!(place, Place::Draw | Place::Watch | Place::Raise))
}

fn queue_place_at_a_ticket_root(tree: &Tree, state: &State) -> bool {
    tree.ticket_root && (0..tree.threads).any(|thread| is_queue_place(state.places[thread]) && domain_of(tree, state, thread) == ROOT)
}

fn tail_at_a_ticket_root(tree: &Tree, state: &State) -> bool {
    tree.ticket_root && state.tails[ROOT].is_some()
}

fn watched_status_above_a_ticket(tree: &Tree, state: &State) -> bool {
    let watches = |&thread: &usize| state.places[thread] == Place::Watch;
    tree.ticket_root && (0..tree.threads).filter(watches).any(|thread| state.statuses[tree.record(thread, ROOT)] > u16::MAX as u64)
}

fn ticket_or_grant_at_a_queue_root(tree: &Tree, state: &State) -> bool {
    !tree.ticket_root && (state.ticket, state.grant) != (0, 0)
}

/// Whether a counter of one of these domains passes the test.
fn some_counter(state: &State, mut domains: std::ops::Range<usize>, test: impl Fn(u64) -> bool) -> bool {
    domains.any(|domain| state.counters.of(domain).into_iter().any(&test))
}

fn counter_of_the_root(_: &Tree, state: &State) -> bool {
    some_counter(state, ROOT..ROOT + 1, |count| count != 0)
}

fn counter_of_unused_room(tree: &Tree, state: &State) -> bool {
    some_counter(state, tree.domains..DOMAIN_ROOM, |count| count != 0)
}

fn longest_above_the_threshold(tree: &Tree, state: &State) -> bool {
    (1..tree.domains).any(|domain| state.counters.longest[domain] > tree.thresholds[domain] as u64)
}

fn entries_above_the_most(tree: &Tree, state: &State) -> bool {
    state.counters.entries[1..tree.domains].iter().any(|&count| count > MOST_COUNTED)
}

fn tenures_above_the_most(tree: &Tree, state: &State) -> bool {
    state.counters.tenures[1..tree.domains].iter().any(|&count| count > MOST_COUNTED)
}

/// The reasons for 10 that come from the kind of root or from a counter, each with its name. A longest tenure above 2^63 is also above the threshold.
pub type Reason = (&'static str, fn(&Tree, &State) -> bool);

pub const REASONS: [Reason; 10] = [
    ("draw, watch or raise at a queue root", ticket_place_at_a_queue_root),
    ("queue place at a ticket root", queue_place_at_a_ticket_root),
    ("tail at a ticket root", tail_at_a_ticket_root),
    ("watched status above 65,535", watched_status_above_a_ticket),
    ("ticket or grant at a queue root", ticket_or_grant_at_a_queue_root),
    ("counter of the root", counter_of_the_root),
    ("counter of unused room", counter_of_unused_room),
    ("longest above the threshold", longest_above_the_threshold),
    ("entries above 2^63", entries_above_the_most),
    ("tenures above 2^63", tenures_above_the_most),
];

/// Well formed, apart from what the kind of root or a counter refuses.
pub fn words_well_formed(tree: &Tree, state: &State) -> bool {
    (0..DOMAIN_ROOM).all(|domain| tail_well_formed(tree, state, domain))
        && (0..RECORD_ROOM).all(|record| record_well_formed(tree, state, record))
        && (0..THREAD_ROOM).all(|thread| place_well_formed(tree, state, thread))
}

pub fn well_formed(tree: &Tree, state: &State) -> bool {
    words_well_formed(tree, state) && !REASONS.iter().any(|(_, refuses)| refuses(tree, state))
}

/// Checks 10.
fn accept_state(tree: &Tree, state: &State) -> Outcome<()> {
    refuse_if(10, !well_formed(tree, state))
}

/// Checks 4 to 9, 16 and 10.
pub fn accept_kept(tree: &Tree, state: &State) -> Outcome<()> {
    accept_tree(tree)?;
    accept_state(tree, state)
}

/// Checks 12.
pub fn accept_entries(tree: &Tree, schedule: impl Iterator<Item = u16>) -> Outcome<()> {
    for (position, thread) in schedule.enumerate() {
        if thread as usize >= tree.threads {
            return refuse(12, position);
        }
    }
    Ok(())
}

/// Checks 19, the last refusal.
pub fn accept_counters(tree: &Tree, state: &State, schedule: &[u16]) -> Outcome<()> {
    match first_past(tree, state, schedule) {
        Some(position) => refuse(19, position),
        None => Ok(()),
    }
}

fn accept_step(tree: &Tree, state: &State, thread: u16) -> Outcome<()> {
    accept_tree(tree)?;
    accept_state(tree, state)?;
    accept_entries(tree, std::iter::once(thread))?;
    accept_counters(tree, state, &[thread])
}

/// Checks 4 to 9, 16 and 10 to 13: all tests of a run before 19.
pub fn accept_before_counters(tree: &Tree, state: &State, schedule: &[u16], trace: &[u16]) -> Outcome<()> {
    accept_tree(tree)?;
    accept_state(tree, state)?;
    refuse_if(11, schedule.len() > LONGEST_SCHEDULE)?;
    accept_entries(tree, schedule.iter().copied())?;
    refuse_if(13, trace.len() < schedule.len())
}

/// A fresh state, accepted or refused. If the call is refused, the start counts as 0.
pub fn fresh_lock(tree: &Tree, start: u16) -> (Outcome<()>, State) {
    let outcome = accept_tree(tree);
    let start = if outcome.is_ok() { start } else { 0 };
    (outcome, State::fresh_at(tree, start))
}

/// Takes one step. A refused step leaves the state unchanged.
pub fn step_lock(tree: &Tree, state: &mut State, thread: u16) -> Outcome<Kind> {
    accept_step(tree, state, thread)?;
    Ok(step(tree, state, thread as usize))
}

/// Runs a schedule. A refused run takes no step and leaves the state and the trace buffer unchanged.
pub fn run_lock(tree: &Tree, state: &mut State, schedule: &[u16], trace: &mut [u16]) -> Outcome<Counts> {
    accept_before_counters(tree, state, schedule, trace)?;
    accept_counters(tree, state, schedule)?;
    let mut entered = Vec::new();
    let counts = run(tree, state, schedule.iter().copied(), &mut entered);
    trace[..entered.len()].copy_from_slice(&entered);
    Ok(counts)
}
