//! Document 02, (vii): for every domain except the root, its threads' entries, its tenures and its longest tenure. No step reads them.

use crate::table::*;

/// The largest value of a counter.
pub const MOST_COUNTED: u64 = 1 << 63;

#[repr(C)]
#[derive(Clone, Copy, Debug, PartialEq, Eq)]
pub struct Counters {
    pub entries: [u64; DOMAIN_ROOM],
    pub tenures: [u64; DOMAIN_ROOM],
    pub longest: [u64; DOMAIN_ROOM],
}

impl Counters {
    pub const ZERO: Counters = Counters { entries: [0; DOMAIN_ROOM], tenures: [0; DOMAIN_ROOM], longest: [0; DOMAIN_ROOM] };

    /// An entry counts in every domain of the thread's path except the root.
    #[inline]
    pub fn enter(&mut self, tree: &Tree, thread: usize) {
        let mut domain = tree.home(thread);
        while domain != ROOT {
            self.entries[domain] += 1;
            domain = tree.parent(domain);
        }
    }

    /// A member's record is given the lock of its domain. If the member is a domain, a tenure of it starts, with length 1.
    #[inline]
    pub fn give(&mut self, record: usize) {
        if record > domain_record(ROOT) {
            let domain = record - THREAD_ROOM;
            self.tenures[domain] += 1;
            self.lengthen(domain, 1);
        }
    }

    /// The longest tenure includes the running one at once.
    #[inline]
    pub fn lengthen(&mut self, domain: usize, length: u64) {
        self.longest[domain] = self.longest[domain].max(length);
    }

    /// The three counters of a domain.
    pub fn of(&self, domain: usize) -> [u64; 3] {
        [self.entries[domain], self.tenures[domain], self.longest[domain]]
    }

    pub fn all(&self) -> impl Iterator<Item = u64> + '_ {
        self.entries.iter().chain(&self.tenures).chain(&self.longest).copied()
    }
}

/// Starts a tenure of each child of the root that has the new grant as its ticket and has a thread that watches.
pub fn show(tree: &Tree, state: &mut State) {
    for child in 1..tree.domains {
        let record = domain_record(child);
        if tree.parent(child) == ROOT && state.statuses[record] == state.grant as u64 && is_watched(tree, state, record) {
            state.counters.give(record);
        }
    }
}

fn is_watched(tree: &Tree, state: &State, record: usize) -> bool {
    (0..tree.threads).any(|thread| state.places[thread] == Place::Watch && tree.record(thread, ROOT) == record)
}

/// The first position of the schedule whose step would push a counter past 2^63, found by taking the steps on a copy.
pub fn first_past_by_steps(tree: &Tree, state: &State, schedule: &[u16]) -> Option<usize> {
    let mut tried = state.clone();
    schedule.iter().position(|&thread| {
        step(tree, &mut tried, thread as usize);
        tried.counters.all().any(|count| count > MOST_COUNTED)
    })
}

/// The same, but takes no step if every counter is below 2^63 by at least the schedule's length. A step adds at most 1 to entries and tenures, and a longest tenure is at most its threshold.
pub fn first_past(tree: &Tree, state: &State, schedule: &[u16]) -> Option<usize> {
    let largest = state.counters.all().max().unwrap_or(0);
    if largest + schedule.len() as u64 <= MOST_COUNTED {
        return None;
    }
    first_past_by_steps(tree, state, schedule)
}
