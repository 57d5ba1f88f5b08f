//! Document 01's tree, words and step table, document 02's ticket lock at the root, and what each row counts. Each row is one function.

use crate::counters::{show, Counters};

pub const DOMAIN_ROOM: usize = 64;
pub const THREAD_ROOM: usize = 256;
pub const RECORD_ROOM: usize = THREAD_ROOM + DOMAIN_ROOM;
pub const DEEPEST_LEVEL: u8 = 6;
pub const ROOT: usize = 0;

pub const COHORT_START: u64 = 1;
pub const ACQUIRE_PARENT: u64 = u64::MAX - 1;
pub const WAIT: u64 = u64::MAX;
pub const UNLOCKED: u64 = 0;
pub const LOCKED: u64 = 1;

/// The counts are separate from the arrays, so a tree with too many domains or threads can be represented. The root is a queue or a ticket lock.
#[derive(Clone, Debug)]
pub struct Tree {
    pub domains: usize,
    pub threads: usize,
    pub parents: [u8; DOMAIN_ROOM],
    pub thresholds: [u16; DOMAIN_ROOM],
    pub homes: [u8; THREAD_ROOM],
    pub ticket_root: bool,
}

/// Draw, Watch and Raise are the places of a ticket lock at the root.
#[derive(Clone, Copy, Debug, PartialEq, Eq)]
pub enum Place {
    Idle,
    Prep(u8),
    Swap(u8),
    Link(u8, u16),
    Wait(u8),
    Inside,
    Check(u8),
    Help(u8),
    Cas(u8),
    Linger(u8),
    Grant(u8, u16, u64),
    Draw,
    Watch,
    Raise,
}

/// Ticket and grant belong to a ticket lock at the root. They are 0 at a queue root.
#[derive(Clone, Debug, PartialEq, Eq)]
pub struct State {
    pub tails: [Option<u16>; DOMAIN_ROOM],
    pub nexts: [Option<u16>; RECORD_ROOM],
    pub statuses: [u64; RECORD_ROOM],
    pub places: [Place; THREAD_ROOM],
    pub ticket: u16,
    pub grant: u16,
    pub counters: Counters,
}

#[derive(Clone, Copy, Debug, PartialEq, Eq)]
pub enum Kind {
    Stay,
    Move,
    RootEntry,
    PassedEntry,
    CrossedEntry,
    Leaving,
}

#[derive(Clone, Copy, Debug, Default, PartialEq, Eq)]
pub struct Counts {
    pub steps: u32,
    pub entries: u32,
    pub stays: u32,
    pub root: u32,
    pub passed: u32,
    pub crossed: u32,
}

impl Tree {
    pub fn new() -> Tree {
        Tree { domains: 0, threads: 0, parents: [0; DOMAIN_ROOM], thresholds: [0; DOMAIN_ROOM], homes: [0; THREAD_ROOM], ticket_root: false }
    }

    pub fn parent(&self, domain: usize) -> usize {
        self.parents[domain] as usize
    }

    pub fn home(&self, thread: usize) -> usize {
        self.homes[thread] as usize
    }

    /// Whether the domain is a ticket lock rather than a queue.
    pub fn is_ticket(&self, domain: usize) -> bool {
        self.ticket_root && domain == ROOT
    }

    /// The child of a domain on the thread's path. The domain is above the thread's home.
    pub fn child_on_path(&self, thread: usize, domain: usize) -> usize {
        let mut child = self.home(thread);
        while self.parent(child) != domain {
            child = self.parent(child);
        }
        child
    }

    /// The thread's record at a domain on its path.
    pub fn record(&self, thread: usize, domain: usize) -> usize {
        if domain == self.home(thread) {
            thread
        } else {
            domain_record(self.child_on_path(thread, domain))
        }
    }
}

impl Default for Tree {
    fn default() -> Tree {
        Tree::new()
    }
}

pub fn domain_record(domain: usize) -> usize {
    THREAD_ROOM + domain
}

impl State {
    /// Fresh, with both counters 0.
    pub fn fresh() -> State {
        State {
            tails: [None; DOMAIN_ROOM],
            nexts: [None; RECORD_ROOM],
            statuses: [0; RECORD_ROOM],
            places: [Place::Idle; THREAD_ROOM],
            ticket: 0,
            grant: 0,
            counters: Counters::ZERO,
        }
    }

    /// Fresh, with both counters of a ticket lock at this start. A queue root has no ticket lock, and its counters are 0.
    pub fn fresh_at(tree: &Tree, start: u16) -> State {
        let start = if tree.ticket_root { start } else { 0 };
        State { ticket: start, grant: start, ..State::fresh() }
    }
}

/// The domain of a thread's next step: its home for Idle and for leaving.
pub fn domain_of(tree: &Tree, state: &State, thread: usize) -> usize {
    match state.places[thread] {
        Place::Idle | Place::Inside => tree.home(thread),
        Place::Prep(domain) | Place::Swap(domain) | Place::Link(domain, _) | Place::Wait(domain) => domain as usize,
        Place::Check(domain) | Place::Help(domain) | Place::Cas(domain) | Place::Linger(domain) => domain as usize,
        Place::Grant(domain, _, _) => domain as usize,
        Place::Draw | Place::Watch | Place::Raise => ROOT,
    }
}

/// Takes one schedule entry, which is one row of the table.
#[inline]
pub fn step(tree: &Tree, state: &mut State, thread: usize) -> Kind {
    match state.places[thread] {
        Place::Idle if tree.is_ticket(tree.home(thread)) => draw(tree, state, thread),
        Place::Idle => prep(tree, state, thread, tree.home(thread)),
        Place::Prep(domain) => prep(tree, state, thread, domain as usize),
        Place::Swap(domain) => swap(tree, state, thread, domain as usize),
        Place::Link(domain, before) => link(tree, state, thread, domain as usize, before as usize),
        Place::Wait(domain) => wait(tree, state, thread, domain as usize),
        Place::Inside => leave(tree, state, thread),
        Place::Check(domain) => check(tree, state, thread, domain as usize),
        Place::Help(domain) => help(tree, state, thread, domain as usize),
        Place::Cas(domain) => cas(tree, state, thread, domain as usize),
        Place::Linger(domain) => linger(tree, state, thread, domain as usize),
        Place::Grant(domain, to, word) => grant(tree, state, thread, domain as usize, to as usize, word),
        Place::Draw => draw(tree, state, thread),
        Place::Watch => watch(tree, state, thread),
        Place::Raise => raise(tree, state, thread),
    }
}

fn go(state: &mut State, thread: usize, place: Place) -> Kind {
    state.places[thread] = place;
    Kind::Move
}

fn leave(tree: &Tree, state: &mut State, thread: usize) -> Kind {
    go(state, thread, released_next(tree, tree.home(thread)));
    Kind::Leaving
}

fn enter(tree: &Tree, state: &mut State, thread: usize, entry: Kind) -> Kind {
    state.places[thread] = Place::Inside;
    state.counters.enter(tree, thread);
    entry
}

/// The first place of acquiring a domain.
fn acquired_next(tree: &Tree, domain: usize) -> Place {
    if tree.is_ticket(domain) {
        Place::Draw
    } else {
        Place::Prep(domain as u8)
    }
}

/// The first place of releasing a domain.
fn released_next(tree: &Tree, domain: usize) -> Place {
    if tree.is_ticket(domain) {
        Place::Raise
    } else if domain == ROOT {
        Place::Help(ROOT as u8)
    } else {
        Place::Check(domain as u8)
    }
}

/// The place after a domain is finished.
fn done(tree: &Tree, thread: usize, domain: usize) -> Place {
    if domain == tree.home(thread) {
        Place::Idle
    } else {
        Place::Help(tree.child_on_path(thread, domain) as u8)
    }
}

/// The word v that Help and Linger grant.
fn word_after_help(domain: usize) -> u64 {
    if domain == ROOT {
        UNLOCKED
    } else {
        ACQUIRE_PARENT
    }
}

fn start_cohort(tree: &Tree, state: &mut State, thread: usize, domain: usize, record: usize) -> Kind {
    state.statuses[record] = COHORT_START;
    go(state, thread, acquired_next(tree, tree.parent(domain)))
}

fn prep(tree: &Tree, state: &mut State, thread: usize, domain: usize) -> Kind {
    let record = tree.record(thread, domain);
    state.statuses[record] = if domain == ROOT { LOCKED } else { WAIT };
    state.nexts[record] = None;
    go(state, thread, Place::Swap(domain as u8))
}

fn swap(tree: &Tree, state: &mut State, thread: usize, domain: usize) -> Kind {
    let record = tree.record(thread, domain);
    match state.tails[domain].replace(record as u16) {
        Some(before) => go(state, thread, Place::Link(domain as u8, before)),
        None => {
            state.counters.give(record);
            found_none(tree, state, thread, domain, record)
        }
    }
}

fn found_none(tree: &Tree, state: &mut State, thread: usize, domain: usize, record: usize) -> Kind {
    if domain == ROOT {
        state.statuses[record] = UNLOCKED;
        enter(tree, state, thread, Kind::RootEntry)
    } else {
        start_cohort(tree, state, thread, domain, record)
    }
}

fn link(tree: &Tree, state: &mut State, thread: usize, domain: usize, before: usize) -> Kind {
    state.nexts[before] = Some(tree.record(thread, domain) as u16);
    go(state, thread, Place::Wait(domain as u8))
}

fn wait(tree: &Tree, state: &mut State, thread: usize, domain: usize) -> Kind {
    let record = tree.record(thread, domain);
    let status = state.statuses[record];
    if domain == ROOT {
        match status {
            LOCKED => Kind::Stay,
            _ => enter(tree, state, thread, Kind::RootEntry),
        }
    } else {
        match status {
            WAIT => Kind::Stay,
            ACQUIRE_PARENT => start_cohort(tree, state, thread, domain, record),
            _ if domain == tree.home(thread) => enter(tree, state, thread, Kind::PassedEntry),
            _ => enter(tree, state, thread, Kind::CrossedEntry),
        }
    }
}

fn check(tree: &Tree, state: &mut State, thread: usize, domain: usize) -> Kind {
    let record = tree.record(thread, domain);
    let status = state.statuses[record];
    match state.nexts[record] {
        Some(next) if status < tree.thresholds[domain] as u64 => {
            state.counters.lengthen(domain, status + 1);
            go(state, thread, Place::Grant(domain as u8, next, status + 1))
        }
        _ => go(state, thread, released_next(tree, tree.parent(domain))),
    }
}

fn help(tree: &Tree, state: &mut State, thread: usize, domain: usize) -> Kind {
    match state.nexts[tree.record(thread, domain)] {
        Some(next) => go(state, thread, Place::Grant(domain as u8, next, word_after_help(domain))),
        None => go(state, thread, Place::Cas(domain as u8)),
    }
}

fn cas(tree: &Tree, state: &mut State, thread: usize, domain: usize) -> Kind {
    if state.tails[domain] == Some(tree.record(thread, domain) as u16) {
        state.tails[domain] = None;
        go(state, thread, done(tree, thread, domain))
    } else {
        go(state, thread, Place::Linger(domain as u8))
    }
}

fn linger(tree: &Tree, state: &mut State, thread: usize, domain: usize) -> Kind {
    match state.nexts[tree.record(thread, domain)] {
        None => Kind::Stay,
        Some(next) => go(state, thread, Place::Grant(domain as u8, next, word_after_help(domain))),
    }
}

fn grant(tree: &Tree, state: &mut State, thread: usize, domain: usize, to: usize, word: u64) -> Kind {
    state.statuses[to] = word;
    state.counters.give(to);
    go(state, thread, done(tree, thread, domain))
}

fn draw(tree: &Tree, state: &mut State, thread: usize) -> Kind {
    let (ticket, record) = (state.ticket, tree.record(thread, ROOT));
    state.statuses[record] = ticket as u64;
    state.ticket = ticket.wrapping_add(1);
    if ticket == state.grant {
        state.counters.give(record);
        enter(tree, state, thread, Kind::RootEntry)
    } else {
        go(state, thread, Place::Watch)
    }
}

fn watch(tree: &Tree, state: &mut State, thread: usize) -> Kind {
    if state.statuses[tree.record(thread, ROOT)] == state.grant as u64 {
        enter(tree, state, thread, Kind::RootEntry)
    } else {
        Kind::Stay
    }
}

fn raise(tree: &Tree, state: &mut State, thread: usize) -> Kind {
    state.grant = state.grant.wrapping_add(1);
    show(tree, state);
    go(state, thread, done(tree, thread, ROOT))
}

impl Counts {
    /// Root, passed and crossed entries are each counted from their steps.
    #[inline]
    pub fn count(&mut self, kind: Kind) {
        self.steps += 1;
        self.stays += (kind == Kind::Stay) as u32;
        self.root += (kind == Kind::RootEntry) as u32;
        self.passed += (kind == Kind::PassedEntry) as u32;
        self.crossed += (kind == Kind::CrossedEntry) as u32;
        self.entries += kind.is_entry() as u32;
    }
}

impl Kind {
    /// The number of the kind in a step's answer.
    pub fn number(self) -> u32 {
        match self {
            Kind::Stay => 0,
            Kind::Move => 1,
            Kind::RootEntry => 2,
            Kind::PassedEntry => 3,
            Kind::CrossedEntry => 4,
            Kind::Leaving => 5,
        }
    }

    pub fn is_entry(self) -> bool {
        matches!(self, Kind::RootEntry | Kind::PassedEntry | Kind::CrossedEntry)
    }
}

/// Takes the schedule's steps and adds each entering thread to the trace.
pub fn run(tree: &Tree, state: &mut State, schedule: impl Iterator<Item = u16>, trace: &mut Vec<u16>) -> Counts {
    let mut counts = Counts::default();
    for thread in schedule {
        let kind = step(tree, state, thread as usize);
        counts.count(kind);
        if kind.is_entry() {
            trace.push(thread);
        }
    }
    counts
}
