//! The chain of threads that a thread waits for, written from document 02, request (x), and from what (xii) says of it.

use crate::refusals::*;
use crate::table::*;
use crate::words::{StateWords, TreeWords};

/// Number, place and length.
pub type ChainAnswer = (u32, u32, u32);

/// The signature of the call, for the step table and the library.
pub type ChainCall = fn(&TreeWords, &StateWords, u16, &mut [u16]) -> ChainAnswer;

/// Why a chain breaks off.
#[derive(Clone, Copy, Debug, PartialEq, Eq)]
pub enum Broken {
    Nobody,
    Several,
    ComesBack,
}

pub fn is_on_path(tree: &Tree, thread: usize, domain: usize) -> bool {
    path(tree, thread).any(|above| above == domain)
}

/// The home and all domains above it.
fn path(tree: &Tree, thread: usize) -> impl Iterator<Item = usize> + '_ {
    std::iter::successors(Some(tree.home(thread)), |&domain| (domain != ROOT).then(|| tree.parent(domain)))
}

/// Whether the thread's place is at this domain or at a higher one. Both domains are on the thread's path.
fn there_or_higher(tree: &Tree, thread: usize, place: usize, domain: usize) -> bool {
    path(tree, thread).skip_while(|&above| above != domain).any(|above| above == place)
}

/// Acting as document 01 defines it, at a domain on the thread's path. Watching and raising at a ticket root are acting there.
pub fn acts(tree: &Tree, state: &State, thread: usize, domain: usize) -> bool {
    if !is_on_path(tree, thread, domain) {
        return false;
    }
    let at = domain_of(tree, state, thread);
    let here = there_or_higher(tree, thread, at, domain);
    match state.places[thread] {
        Place::Idle => false,
        Place::Inside | Place::Check(_) | Place::Watch | Place::Raise => true,
        Place::Prep(_) | Place::Swap(_) | Place::Draw => here && at != domain,
        Place::Link(..) | Place::Help(_) | Place::Cas(_) | Place::Linger(_) => here,
        Place::Wait(_) => here || sends_inside(at, state.statuses[tree.record(thread, at)]),
        Place::Grant(_, _, word) => here || word < ACQUIRE_PARENT,
    }
}

fn sends_inside(domain: usize, status: u64) -> bool {
    if domain == ROOT {
        status != LOCKED
    } else {
        status != WAIT && status != ACQUIRE_PARENT
    }
}

/// Which threads a thread waits for, as lists made once for each state. By record: the threads that act for a record whose next is this record, and those in Link with it.
/// By ticket: the threads that act at the root for a record that has the ticket.
struct Looked<'a> {
    tree: &'a Tree,
    state: &'a State,
    ahead: Vec<Vec<u16>>,
    linking: Vec<Vec<u16>>,
    tickets: Vec<(u64, u16)>,
}

impl<'a> Looked<'a> {
    fn new(tree: &'a Tree, state: &'a State) -> Looked<'a> {
        let mut looked = Looked { tree, state, ahead: vec![Vec::new(); RECORD_ROOM], linking: vec![Vec::new(); RECORD_ROOM], tickets: Vec::new() };
        for thread in 0..tree.threads {
            looked.add(thread);
        }
        looked
    }

    fn add(&mut self, thread: usize) {
        let (tree, state) = (self.tree, self.state);
        for domain in path(tree, thread).filter(|&domain| acts(tree, state, thread, domain)) {
            let record = tree.record(thread, domain);
            if let Some(next) = state.nexts[record] {
                self.ahead[next as usize].push(thread as u16);
            }
            if domain == ROOT {
                self.tickets.push((state.statuses[record], thread as u16));
            }
        }
        if let Place::Link(_, record) = state.places[thread] {
            self.linking[record as usize].push(thread as u16);
        }
    }

    /// The threads that this thread waits for, in order. Its next step is a stay.
    fn by(&self, thread: usize) -> Vec<u16> {
        let own = |domain: u8| self.tree.record(thread, domain as usize);
        match self.state.places[thread] {
            Place::Wait(domain) => self.ahead[own(domain)].clone(),
            Place::Linger(domain) => self.linking[own(domain)].clone(),
            Place::Watch => {
                let before = (self.state.statuses[own(0)] as u16).wrapping_sub(1) as u64;
                self.tickets.iter().filter(|(ticket, _)| *ticket == before).map(|&(_, thread)| thread).collect()
            }
            _ => unreachable!("only these three places stay"),
        }
    }
}

/// The chain of a thread, starting with the thread itself, or why there is none. A stay changes nothing, so the next steps of all its threads can be tried on one copy of the state.
pub fn chain(tree: &Tree, state: &State, thread: u16) -> Result<Vec<u16>, Broken> {
    let looked = Looked::new(tree, state);
    let mut tried = state.clone();
    let mut chain = vec![thread];
    let mut last = thread;
    while step(tree, &mut tried, last as usize) == Kind::Stay {
        match looked.by(last as usize)[..] {
            [] => return Err(Broken::Nobody),
            [one] if chain.contains(&one) => return Err(Broken::ComesBack),
            [one] => last = one,
            _ => return Err(Broken::Several),
        }
        chain.push(last);
    }
    Ok(chain)
}

fn accept_chain(tree: &Tree, words: &StateWords, thread: u16, room: usize) -> Outcome<Vec<u16>> {
    accept_tree(tree)?;
    let state = words.state().filter(|state| well_formed(tree, state)).ok_or(Refusal { number: 10, place: 0 })?;
    accept_entries(tree, std::iter::once(thread))?;
    refuse_if(20, room < tree.threads)?;
    chain(tree, &state, thread).map_err(|_| Refusal { number: 21, place: 0 })
}

/// Writes the chain at the front of the buffer. A refused call leaves the buffer unchanged.
pub fn chain_words(tree: &TreeWords, state: &StateWords, thread: u16, buffer: &mut [u16]) -> ChainAnswer {
    match accept_chain(&tree.tree(), state, thread, buffer.len()) {
        Ok(chain) => {
            buffer[..chain.len()].copy_from_slice(&chain);
            (0, 0, chain.len() as u32)
        }
        Err(Refusal { number, place }) => (number, place, 0),
    }
}
