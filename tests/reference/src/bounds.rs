//! The calls for allowances (document 01), for the rounds within which every thread enters, and for the longest waits. Each number is capped at the largest 64-bit number.

use crate::refusals::accept_tree;
use crate::standing::allowance;
use crate::table::*;
use crate::words::TreeWords;

/// The signature of the call, for the reference and the library. Returns number and place.
pub type Allowances = fn(&TreeWords, &mut [u64; DOMAIN_ROOM]) -> (u32, u32);

/// The allowance of a domain, or the largest 64-bit number if it is larger.
pub fn capped_allowance(tree: &Tree, domain: usize) -> u64 {
    allowance(tree, domain_record(domain)).min(u64::MAX as u128) as u64
}

/// The root and the slots after the last domain are 0. A refused call leaves the buffer unchanged.
pub fn allowances(words: &TreeWords, buffer: &mut [u64; DOMAIN_ROOM]) -> (u32, u32) {
    let tree = words.tree();
    if let Err(refusal) = accept_tree(&tree) {
        return (refusal.number, refusal.place);
    }
    *buffer = std::array::from_fn(|domain| if domain != ROOT && domain < tree.domains { capped_allowance(&tree, domain) } else { 0 });
    (0, 0)
}

/// Number and place, rounds and turns. If the call is refused, rounds and turns are 0.
#[repr(C)]
#[derive(Clone, Copy, Debug, PartialEq, Eq)]
pub struct RoundsReply {
    pub number: u32,
    pub place: u32,
    pub rounds: u64,
    pub turns: u64,
}

/// The signature of the call, for the reference and the library.
pub type Rounds = fn(&TreeWords) -> RoundsReply;

/// The root is at level 1.
fn level(tree: &Tree, domain: usize) -> u128 {
    if domain == ROOT {
        1
    } else {
        1 + level(tree, tree.parent(domain))
    }
}

/// The members of a domain: its child domains, and the threads whose home it is.
fn members(tree: &Tree, domain: usize) -> Vec<usize> {
    let children = (1..tree.domains).filter(|&child| tree.parent(child) == domain).map(domain_record);
    (0..tree.threads).filter(|&thread| tree.home(thread) == domain).chain(children).collect()
}

/// How many members of a domain may have the lock one after another while the domains above are kept. It is one at the root, and if there is nobody to pass to.
fn tenure_length(tree: &Tree, domain: usize, members: usize) -> u128 {
    if domain == ROOT || members < 2 {
        1
    } else {
        tree.thresholds[domain] as u128
    }
}

/// The rounds that a member needs from its domain up to the entry. Arriving takes three. If the lock is passed on, one more lets the members before it link. The domains above are acquired once for each tenure that the members need, which takes one round at the root. They are released once for each tenure that the others need, in five rounds for each level. Every entry of the others takes two rounds, and one more for each level of the tree.
fn acquire(tree: &Tree, domain: usize, member: usize) -> u128 {
    let above = if domain == ROOT { 1 } else { acquire(tree, tree.parent(domain), domain_record(domain)) };
    let levels = (0..tree.domains).map(|domain| level(tree, domain)).max().unwrap_or(0);
    let all = members(tree, domain);
    let length = tenure_length(tree, domain, all.len());
    let tenures = |count: usize| (count as u128).div_ceil(length);
    let entries = all.iter().filter(|&&other| other != member).fold(0u128, |sum, &other| sum.saturating_add(passes(tree, other)));
    let links = if length > 1 { 1 } else { 0 };
    (3 + links + tenures(all.len() - 1) * 5 * level(tree, domain))
        .saturating_add(tenures(all.len()).saturating_mul(above))
        .saturating_add((2 + levels).saturating_mul(entries))
}

/// A thread enters within the rounds of an acquisition and of the release before it, which takes six for each level. In round robin, a round is one turn of each thread.
pub fn rounds(words: &TreeWords) -> RoundsReply {
    let tree = words.tree();
    if let Err(refusal) = accept_tree(&tree) {
        return RoundsReply { number: refusal.number, place: refusal.place, rounds: 0, turns: 0 };
    }
    let of_thread = |thread| acquire(&tree, tree.home(thread), thread).saturating_add(6 * level(&tree, tree.home(thread)));
    let everyone = (0..tree.threads).map(of_thread).max().unwrap_or(0);
    let capped = |number: u128| number.min(u64::MAX as u128) as u64;
    RoundsReply { number: 0, place: 0, rounds: capped(everyone), turns: capped(everyone.saturating_mul(tree.threads as u128)) }
}

/// The signature of the call, for the reference and the library. Returns number and place.
pub type WaitBounds = fn(&TreeWords, &mut [u64; THREAD_ROOM]) -> (u32, u32);

/// How many entries of threads under a member may be in line while another member of its domain waits once.
fn passes(tree: &Tree, member: usize) -> u128 {
    if member < THREAD_ROOM {
        return 1;
    }
    let domain = member - THREAD_ROOM;
    let inner = members(tree, domain);
    let threshold = if inner.len() > 1 { tree.thresholds[domain] as u128 } else { 1 };
    threshold.saturating_mul(inner.iter().map(|&one| passes(tree, one)).max().unwrap_or(0))
}

/// The longest wait of a member of a domain: the passes of the other members, and the wait of the domain itself once for each tenure that its members need.
fn longest_wait(tree: &Tree, domain: usize, member: usize) -> u128 {
    let all = members(tree, domain);
    let others = all.iter().filter(|&&other| other != member).fold(0u128, |sum, &other| sum.saturating_add(passes(tree, other)));
    if domain == ROOT {
        return others;
    }
    let tenures = (all.len() as u128).div_ceil(tree.thresholds[domain] as u128);
    others.saturating_add(tenures.saturating_mul(longest_wait(tree, tree.parent(domain), domain_record(domain))))
}

/// The slots after the last thread are 0. A refused call leaves the buffer unchanged.
pub fn wait_bounds(words: &TreeWords, buffer: &mut [u64; THREAD_ROOM]) -> (u32, u32) {
    let tree = words.tree();
    if let Err(refusal) = accept_tree(&tree) {
        return (refusal.number, refusal.place);
    }
    let bound = |thread| longest_wait(&tree, tree.home(thread), thread).min(u64::MAX as u128) as u64;
    *buffer = std::array::from_fn(|thread| if thread < tree.threads { bound(thread) } else { 0 });
    (0, 0)
}
