//! The check of a journal, written from document 02, request (xiv), and a writer of journals.

use crate::random::Random;
use crate::refusals::{accept_tree, Refusal};
use crate::table::{step, State, Tree};
use crate::words::TreeWords;

#[repr(C)]
#[derive(Clone, Copy, Debug, PartialEq, Eq)]
pub struct JournalAnswer {
    pub number: u32,
    pub place: usize,
}

/// The signature of the call, for the step table and the library.
pub type CheckJournal = fn(&TreeWords, &[u8]) -> JournalAnswer;

/// Thread and kind of the first entry, and the bytes after it. None if the entry is cut off or has another bit set.
fn first_entry(bytes: &[u8], before: u16) -> Option<(u16, u8, &[u8])> {
    let (&map, mut rest) = bytes.split_first()?;
    if map & !3 != 0 {
        return None;
    }
    let mut thread = before;
    if map & 1 != 0 {
        thread = u16::from_le_bytes([*rest.first()?, *rest.get(1)?]);
        rest = &rest[2..];
    }
    let mut kind = 0;
    if map & 2 != 0 {
        kind = *rest.first()?;
        rest = &rest[1..];
    }
    Some((thread, kind, rest))
}

/// Checks each entry for 25, then 12, then 26. The place is the position at which the entry begins.
fn check_entries(tree: &Tree, journal: &[u8]) -> JournalAnswer {
    let mut state = State::fresh();
    let mut rest = journal;
    let mut before = 0;
    while !rest.is_empty() {
        let refused = |number| JournalAnswer { number, place: journal.len() - rest.len() };
        let Some((thread, kind, after)) = first_entry(rest, before) else {
            return refused(25);
        };
        if thread as usize >= tree.threads {
            return refused(12);
        }
        if step(tree, &mut state, thread as usize).number() != kind as u32 {
            return refused(26);
        }
        rest = after;
        before = thread;
    }
    JournalAnswer { number: 0, place: 0 }
}

pub fn check_journal(words: &TreeWords, journal: &[u8]) -> JournalAnswer {
    let tree = words.tree();
    match accept_tree(&tree) {
        Ok(()) => check_entries(&tree, journal),
        Err(Refusal { number, place }) => JournalAnswer { number, place: place as usize },
    }
}

/// Appends an entry to the journal. A field is written if it must be or if the caller wants it.
pub fn write_entry(journal: &mut Vec<u8>, before: u16, (thread, kind): (u16, u8), (thread_too, kind_too): (bool, bool)) {
    let map = u8::from(thread_too || thread != before) | u8::from(kind_too || kind != 0) << 1;
    journal.push(map);
    if map & 1 != 0 {
        journal.extend(thread.to_le_bytes());
    }
    if map & 2 != 0 {
        journal.push(kind);
    }
}

/// The journal of a schedule's steps from a fresh lock, and the position at which each entry begins. A field that could be left out is written one time in `one_in`, or never.
pub fn write_journal(tree: &Tree, schedule: &[u16], random: &mut Random, one_in: Option<usize>) -> (Vec<u8>, Vec<usize>) {
    let mut state = State::fresh();
    let (mut journal, mut begins) = (Vec::new(), Vec::new());
    let mut before = 0;
    for &thread in schedule {
        let kind = step(tree, &mut state, thread as usize).number() as u8;
        let mut too = || one_in.map_or(false, |times| random.one_in(times));
        let fields = (too(), too());
        begins.push(journal.len());
        write_entry(&mut journal, before, (thread, kind), fields);
        before = thread;
    }
    (journal, begins)
}
