//! Runs the step table and Listing 1 side by side. After every schedule entry the words must be the same and the thread must be at the same line.

use crate::listing::{HNode, Lock, QNode, Worker, CRITICAL_SECTION};
use crate::table::*;
use crate::ticket_lock::{TicketLock, DRAW, RAISE, WATCH};
use crate::turnstile::{Scheduler, Turnstile};
use std::collections::{BTreeMap, BTreeSet};
use std::sync::atomic::{AtomicBool, Ordering::SeqCst};
use std::thread;

const STACK: usize = 64 * 1024;

type Ways = &'static [(u32, &'static [u32])];

/// For each line that begins a step, the lines at which the same thread's next step may begin, for either kind of root.
const SHARED_WAYS: Ways = &[
    (CRITICAL_SECTION, &[25]),
    (7, &[9]),
    (9, &[7, 11]),
    (11, &[13]),
    (13, &[CRITICAL_SECTION, 7, 13]),
    (25, &[25, 37]),
    (37, &[7, 53]),
    (53, &[55, 57]),
    (55, &[7, 53]),
    (57, &[7, 53, 58]),
    (58, &[58, 59]),
    (59, &[7, 53]),
];

const QUEUE_ROOT_WAYS: Ways = &[
    (CRITICAL_SECTION, &[53]),
    (9, &[66]),
    (13, &[66]),
    (25, &[53]),
    (55, &[66]),
    (57, &[66]),
    (59, &[66]),
    (66, &[67]),
    (67, &[CRITICAL_SECTION, 71]),
    (71, &[72]),
    (72, &[CRITICAL_SECTION, 72]),
];

const TICKET_ROOT_WAYS: Ways = &[
    (CRITICAL_SECTION, &[RAISE]),
    (9, &[DRAW]),
    (13, &[DRAW]),
    (25, &[RAISE]),
    (DRAW, &[CRITICAL_SECTION, WATCH]),
    (WATCH, &[CRITICAL_SECTION, WATCH]),
    (RAISE, &[DRAW, 53]),
];

/// How often each way was taken at one kind of root, how often a threshold prevented passing to a successor, and how often a counter wrapped around.
#[derive(Default)]
pub struct Coverage {
    pub entries: u64,
    pub ways: BTreeMap<(u32, u32), u64>,
    pub thresholds_reached: u64,
    pub grants_to_zero: u64,
}

impl Coverage {
    fn count(&mut self, from: u32, to: u32) {
        self.entries += 1;
        *self.ways.entry((from, to)).or_insert(0) += 1;
    }

    /// Whether all ways of this kind of root were taken and no others, a threshold was reached, and a grant went from 65,535 to 0.
    pub fn complete(&self, ticket_root: bool) -> bool {
        let own = if ticket_root { TICKET_ROOT_WAYS } else { QUEUE_ROOT_WAYS };
        let ways = SHARED_WAYS.iter().chain(own).flat_map(|&(from, lines)| lines.iter().map(move |&to| (from, to)));
        ways.collect::<BTreeSet<_>>() == self.ways.keys().copied().collect()
            && self.thresholds_reached > 0
            && (self.grants_to_zero > 0) == ticket_root
    }
}

/// The first schedule entry after which the two differ, and how they differ.
#[derive(Debug)]
pub struct Difference {
    pub position: usize,
    pub text: String,
}

/// Runs the listing in threads, and the table next to it. The tree must be accepted, and the start is for a ticket root.
pub fn compare(tree: &Tree, start: u16, schedule: &[u16], coverage: &mut Coverage) -> Result<State, Difference> {
    let lock = new_lock(tree, start);
    let turnstile = Turnstile::new();
    thread::scope(|scope| {
        let mut scheduler = turnstile.scheduler();
        for number in 0..tree.threads {
            let worker = Worker::new(&lock, turnstile.turn(number));
            let work = move || worker.work(number, tree.home(number));
            let started = thread::Builder::new().stack_size(STACK).spawn_scoped(scope, work).expect("a thread starts");
            scheduler.add(started.thread().clone());
        }
        take_steps(tree, State::fresh_at(tree, start), schedule, &lock, &scheduler, coverage)
    })
}

fn new_lock(tree: &Tree, start: u16) -> Lock {
    let parent = |domain| if domain == ROOT { None } else { Some(tree.parent(domain)) };
    Lock {
        qnodes: (0..RECORD_ROOM).map(|_| QNode::new()).collect(),
        hnodes: (0..tree.domains).map(|domain| HNode::new(parent(domain), domain_record(domain), tree.thresholds[domain] as u64)).collect(),
        ticket_root: tree.ticket_root.then(|| TicketLock::new(start)),
        inside: (0..tree.threads).map(|_| AtomicBool::new(false)).collect(),
    }
}

fn take_steps(
    tree: &Tree,
    mut state: State,
    schedule: &[u16],
    lock: &Lock,
    scheduler: &Scheduler,
    coverage: &mut Coverage,
) -> Result<State, Difference> {
    let mut lines: Vec<u32> = (0..tree.threads).map(|thread| lines_of(tree, thread, Place::Idle)[0]).collect();
    for (position, &thread) in schedule.iter().enumerate() {
        let thread = thread as usize;
        coverage.thresholds_reached += threshold_reached(tree, &state, thread) as u64;
        let grant = state.grant;
        step(tree, &mut state, thread);
        coverage.grants_to_zero += (state.grant < grant) as u64;
        let line = scheduler.pass(thread);
        if let Some(text) = difference(tree, &state, lock, thread, line) {
            return Err(Difference { position, text });
        }
        coverage.count(lines[thread], line);
        lines[thread] = line;
    }
    Ok(state)
}

fn threshold_reached(tree: &Tree, state: &State, thread: usize) -> bool {
    match state.places[thread] {
        Place::Check(domain) => {
            let record = tree.record(thread, domain as usize);
            state.nexts[record].is_some() && state.statuses[record] >= tree.thresholds[domain as usize] as u64
        }
        _ => false,
    }
}

/// The lines of the listing at which a thread in this place may be.
fn lines_of(tree: &Tree, thread: usize, place: Place) -> &'static [u32] {
    let at = |domain: usize, root: &'static [u32], below: &'static [u32]| if domain == ROOT { root } else { below };
    match place {
        Place::Idle if tree.is_ticket(tree.home(thread)) => &[DRAW],
        Place::Idle => at(tree.home(thread), &[66], &[7]),
        Place::Prep(domain) => at(domain as usize, &[66], &[7]),
        Place::Swap(domain) => at(domain as usize, &[67], &[9]),
        Place::Link(domain, _) => at(domain as usize, &[71], &[11]),
        Place::Wait(domain) => at(domain as usize, &[72], &[13]),
        Place::Inside => &[CRITICAL_SECTION],
        Place::Check(_) => &[25],
        Place::Help(_) => &[53],
        Place::Cas(_) => &[57],
        Place::Linger(_) => &[58],
        Place::Grant(_, _, _) => &[37, 55, 59],
        Place::Draw => &[DRAW],
        Place::Watch => &[WATCH],
        Place::Raise => &[RAISE],
    }
}

/// The first thing that differs, in words.
fn difference(tree: &Tree, state: &State, lock: &Lock, thread: usize, line: u32) -> Option<String> {
    let number = |record: Option<u16>| record.map(|record| record as usize);
    let place = state.places[thread];
    let tail = (0..tree.domains).find(|&domain| lock.hnodes[domain].tail() != number(state.tails[domain]));
    let next = (0..RECORD_ROOM).find(|&record| lock.qnodes[record].next() != number(state.nexts[record]));
    let status = (0..RECORD_ROOM).find(|&record| lock.qnodes[record].status() != state.statuses[record]);
    let inside = (0..tree.threads).find(|&thread| lock.inside[thread].load(SeqCst) != (state.places[thread] == Place::Inside));
    let counters = lock.ticket_root.as_ref().map_or((0, 0), TicketLock::counters);
    let ticket = Some(counters.0 as usize).filter(|_| counters.0 != state.ticket);
    let grant = Some(counters.1 as usize).filter(|_| counters.1 != state.grant);
    let line = Some(line as usize).filter(|_| !lines_of(tree, thread, place).contains(&line));
    let words = [("tail of domain", tail), ("next of record", next), ("status of record", status), ("ticket", ticket), ("grant", grant)];
    words
        .iter()
        .chain(&[("inside of thread", inside), ("line", line)])
        .find_map(|&(what, number)| number.map(|number| format!("{what} {number}, thread {thread} at {place:?}")))
}
