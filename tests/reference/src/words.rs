//! The words that are passed in a call, laid out as in C, and the tree and state that they stand for.

use crate::counters::Counters;
use crate::table::*;

#[repr(C)]
#[derive(Clone, Copy, Debug, PartialEq, Eq)]
pub struct TreeWords {
    pub domains: u32,
    pub threads: u32,
    pub parents: [u8; DOMAIN_ROOM],
    pub thresholds: [u16; DOMAIN_ROOM],
    pub homes: [u8; THREAD_ROOM],
    /// 0 for a queue at the root, any other number for a ticket lock.
    pub ticket_root: u32,
}

/// A row of the step table, from 0 Idle to 13 Raise. A part that the row does not have is 0.
#[repr(C)]
#[derive(Clone, Copy, Debug, Default, PartialEq, Eq)]
pub struct PlaceWords {
    pub row: u8,
    pub domain: u8,
    pub peer: u16,
    pub word: u64,
}

/// The places of all threads, with one array for each number.
#[repr(C)]
#[derive(Clone, Copy, Debug, PartialEq, Eq)]
pub struct PlaceArrays {
    pub rows: [u8; THREAD_ROOM],
    pub domains: [u8; THREAD_ROOM],
    pub peers: [u16; THREAD_ROOM],
    pub words: [u64; THREAD_ROOM],
}

/// A tail or a next is 0 for none, otherwise the record's number plus 1.
#[repr(C)]
#[derive(Clone, Copy, Debug, PartialEq, Eq)]
pub struct StateWords {
    pub tails: [u16; DOMAIN_ROOM],
    pub nexts: [u16; RECORD_ROOM],
    pub statuses: [u64; RECORD_ROOM],
    pub places: PlaceArrays,
    pub ticket: u16,
    pub grant: u16,
    pub counters: Counters,
}

#[repr(C)]
#[derive(Clone, Copy, Debug, PartialEq, Eq)]
pub struct Reply {
    pub number: u32,
    pub place: u32,
    pub state: StateWords,
}

/// Number and place of a step's answer, its kind and its domain.
#[repr(C)]
#[derive(Clone, Copy, Debug, Default, PartialEq, Eq)]
pub struct StepAnswer {
    pub number: u32,
    pub place: u32,
    pub kind: u32,
    pub domain: u32,
}

#[repr(C)]
#[derive(Clone, Copy, Debug, PartialEq, Eq)]
pub struct StepReply {
    pub answer: StepAnswer,
    pub state: StateWords,
}

#[repr(C)]
#[derive(Clone, Copy, Debug, PartialEq, Eq)]
pub struct RunReply {
    pub number: u32,
    pub place: u32,
    pub steps: u32,
    pub entries: u32,
    pub stays: u32,
    pub root: u32,
    pub passed: u32,
    pub crossed: u32,
    pub state: StateWords,
}

impl TreeWords {
    pub fn of(tree: &Tree) -> TreeWords {
        TreeWords {
            domains: tree.domains as u32,
            threads: tree.threads as u32,
            parents: tree.parents,
            thresholds: tree.thresholds,
            homes: tree.homes,
            ticket_root: u32::from(tree.ticket_root),
        }
    }

    pub fn tree(&self) -> Tree {
        Tree {
            domains: self.domains as usize,
            threads: self.threads as usize,
            parents: self.parents,
            thresholds: self.thresholds,
            homes: self.homes,
            ticket_root: self.ticket_root != 0,
        }
    }
}

impl PlaceWords {
    /// None if the four numbers are not a place.
    pub fn place(self) -> Option<Place> {
        let PlaceWords { row, domain, peer, word } = self;
        match (row, domain, peer, word) {
            (0, 0, 0, 0) => Some(Place::Idle),
            (1, _, 0, 0) => Some(Place::Prep(domain)),
            (2, _, 0, 0) => Some(Place::Swap(domain)),
            (3, _, _, 0) => Some(Place::Link(domain, peer)),
            (4, _, 0, 0) => Some(Place::Wait(domain)),
            (5, 0, 0, 0) => Some(Place::Inside),
            (6, _, 0, 0) => Some(Place::Check(domain)),
            (7, _, 0, 0) => Some(Place::Help(domain)),
            (8, _, 0, 0) => Some(Place::Cas(domain)),
            (9, _, 0, 0) => Some(Place::Linger(domain)),
            (10, _, _, _) => Some(Place::Grant(domain, peer, word)),
            (11, 0, 0, 0) => Some(Place::Draw),
            (12, 0, 0, 0) => Some(Place::Watch),
            (13, 0, 0, 0) => Some(Place::Raise),
            _ => None,
        }
    }

    pub fn of(place: Place) -> PlaceWords {
        let (row, domain, peer, word) = match place {
            Place::Idle => (0, 0, 0, 0),
            Place::Prep(domain) => (1, domain, 0, 0),
            Place::Swap(domain) => (2, domain, 0, 0),
            Place::Link(domain, peer) => (3, domain, peer, 0),
            Place::Wait(domain) => (4, domain, 0, 0),
            Place::Inside => (5, 0, 0, 0),
            Place::Check(domain) => (6, domain, 0, 0),
            Place::Help(domain) => (7, domain, 0, 0),
            Place::Cas(domain) => (8, domain, 0, 0),
            Place::Linger(domain) => (9, domain, 0, 0),
            Place::Grant(domain, peer, word) => (10, domain, peer, word),
            Place::Draw => (11, 0, 0, 0),
            Place::Watch => (12, 0, 0, 0),
            Place::Raise => (13, 0, 0, 0),
        };
        PlaceWords { row, domain, peer, word }
    }
}

impl PlaceArrays {
    pub fn of(places: &[Place; THREAD_ROOM]) -> PlaceArrays {
        let mut arrays = PlaceArrays { rows: [0; THREAD_ROOM], domains: [0; THREAD_ROOM], peers: [0; THREAD_ROOM], words: [0; THREAD_ROOM] };
        for (thread, &place) in places.iter().enumerate() {
            arrays.set(thread, PlaceWords::of(place));
        }
        arrays
    }

    pub fn get(&self, thread: usize) -> PlaceWords {
        PlaceWords { row: self.rows[thread], domain: self.domains[thread], peer: self.peers[thread], word: self.words[thread] }
    }

    pub fn set(&mut self, thread: usize, words: PlaceWords) {
        self.rows[thread] = words.row;
        self.domains[thread] = words.domain;
        self.peers[thread] = words.peer;
        self.words[thread] = words.word;
    }
}

fn record(word: u16) -> Option<u16> {
    word.checked_sub(1)
}

fn record_word(record: Option<u16>) -> u16 {
    record.map_or(0, |record| record + 1)
}

impl StateWords {
    /// All words 0.
    pub fn fresh() -> StateWords {
        StateWords::of(&State::fresh())
    }

    /// None if the numbers of some place are not a place.
    pub fn state(&self) -> Option<State> {
        let mut places = [Place::Idle; THREAD_ROOM];
        for (thread, place) in places.iter_mut().enumerate() {
            *place = self.places.get(thread).place()?;
        }
        let (tails, nexts) = (self.tails.map(record), self.nexts.map(record));
        Some(State { tails, nexts, statuses: self.statuses, places, ticket: self.ticket, grant: self.grant, counters: self.counters })
    }

    pub fn of(state: &State) -> StateWords {
        StateWords {
            tails: state.tails.map(record_word),
            nexts: state.nexts.map(record_word),
            statuses: state.statuses,
            places: PlaceArrays::of(&state.places),
            ticket: state.ticket,
            grant: state.grant,
            counters: state.counters,
        }
    }
}
