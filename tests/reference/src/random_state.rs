//! Random trees and states of a caller: reached, arbitrary but well formed, and damaged. Also random starts of a ticket lock, and random counters.

use crate::counters::{Counters, MOST_COUNTED};
use crate::draft::Draft;
use crate::random::Random;
use crate::schedules::{schedule, STYLES};
use crate::table::*;
use crate::words::*;

/// A start of a ticket lock, usually so close to 65,535 that its counters wrap around.
pub fn random_start(random: &mut Random) -> u16 {
    match random.below(5) {
        0 => 0,
        1 => random.below(65_536) as u16,
        2 => 65_535,
        _ => random.between(65_520, 65_535) as u16,
    }
}

/// The words of a draft's tree. Words that are not read are random, and a ticket root is any number except 0.
pub fn tree_words(random: &mut Random, draft: &Draft) -> TreeWords {
    let mut words = TreeWords {
        domains: draft.parents.len() as u32,
        threads: draft.homes.len() as u32,
        parents: std::array::from_fn(|_| random.below(256) as u8),
        thresholds: std::array::from_fn(|_| random.below(65_536) as u16),
        homes: std::array::from_fn(|_| random.below(256) as u8),
        ticket_root: if draft.ticket_root { random.pick(&[1, 1, 2, 128, 256, 65_536, 1 << 31, u32::MAX]) } else { 0 },
    };
    for domain in 1..draft.parents.len().min(DOMAIN_ROOM) {
        words.parents[domain] = draft.parents[domain];
        words.thresholds[domain] = draft.thresholds[domain];
    }
    for thread in 0..draft.homes.len().min(THREAD_ROOM) {
        words.homes[thread] = draft.homes[thread];
    }
    words
}

/// A state for a tree that is accepted.
pub fn random_state(random: &mut Random, tree: &Tree) -> StateWords {
    let mut state = match random.below(3) {
        0 => State::fresh_at(tree, random_start(random)),
        1 => reached(random, tree),
        _ => any_well_formed(random, tree),
    };
    if random.one_in(2) {
        state.counters = random_counters(random, tree);
    }
    StateWords::of(&state)
}

/// Any allowed counters. Those of one domain, of all or of none are so close to 2^63 that a few steps or a long schedule would push one past it.
pub fn random_counters(random: &mut Random, tree: &Tree) -> Counters {
    let mut counters = Counters::ZERO;
    let near = random.pick(&[0, 1, 3, 12, 4_000, 8_000]);
    let chosen = random.below(tree.domains);
    let all = random.one_in(3);
    for domain in 1..tree.domains {
        let mut count = || if all || domain == chosen { MOST_COUNTED - random.between(0, near) as u64 } else { random_count(random) };
        (counters.entries[domain], counters.tenures[domain]) = (count(), count());
        let threshold = tree.thresholds[domain] as usize;
        let lengths = [0, 1, threshold - 1, threshold, random.between(0, threshold)];
        counters.longest[domain] = random.pick(&lengths) as u64;
    }
    counters
}

/// Fresh, with the counters of thread 0's home so close to 2^63 that a few thousand of its entries push one past it.
pub fn late_state(random: &mut Random, tree: &Tree) -> StateWords {
    let mut state = State::fresh_at(tree, random_start(random));
    if tree.home(0) != ROOT {
        state.counters.entries[tree.home(0)] = MOST_COUNTED - random.below(7_000) as u64;
        state.counters.tenures[tree.home(0)] = MOST_COUNTED - random.below(7_000) as u64;
    }
    StateWords::of(&state)
}

/// Usually far from 2^63, and sometimes about as far from it as the longest schedule is long.
fn random_count(random: &mut Random) -> u64 {
    let edge = MOST_COUNTED - 65_536;
    let counts = [0, 1, 77, u32::MAX as u64, random.word() >> 1, edge - 1, edge, edge + 1];
    random.pick(&counts)
}

/// The state after a random schedule from fresh.
pub fn reached(random: &mut Random, tree: &Tree) -> State {
    let (style, length) = (random.pick(&STYLES), random.between(0, 300));
    let mut state = State::fresh_at(tree, random_start(random));
    run(tree, &mut state, schedule(random, tree, style, length).into_iter(), &mut Vec::new());
    state
}

pub fn any_well_formed(random: &mut Random, tree: &Tree) -> State {
    let mut state = State::fresh();
    for domain in 0..tree.domains {
        let members = members(tree, domain);
        state.tails[domain] = none_or_one(random, &members);
        for &record in &members {
            state.nexts[record as usize] = none_or_one(random, &members);
            state.statuses[record as usize] = random_word(random, tree);
        }
    }
    for thread in 0..tree.threads {
        state.places[thread] = random_place(random, tree, thread);
    }
    if tree.ticket_root {
        make_ticket_root(random, tree, &mut state);
    }
    state
}

/// Well formed, with most threads in a place that can stay: the members of each domain name one another in a ring, and some linger for others in Link.
pub fn waiting(random: &mut Random, tree: &Tree) -> State {
    let mut state = any_well_formed(random, tree);
    for domain in 0..tree.domains {
        let members = members(tree, domain);
        let turn = random.below(members.len());
        for (k, &record) in members.iter().enumerate().filter(|_| !random.one_in(6)) {
            state.nexts[record as usize] = Some(members[(k + turn) % members.len()]);
        }
    }
    for thread in 0..tree.threads {
        let domain = domain_on_path(random, tree, thread);
        let (at, record, member) = (domain as u8, tree.record(thread, domain), random.pick(&members(tree, domain)));
        if tree.is_ticket(domain) || random.one_in(4) {
            continue;
        }
        state.places[thread] = random.pick(&[Place::Wait(at), Place::Wait(at), Place::Wait(at), Place::Linger(at), Place::Link(at, member)]);
        match state.places[thread] {
            Place::Wait(_) => state.statuses[record] = if domain == ROOT { LOCKED } else { WAIT },
            Place::Linger(_) => state.nexts[record] = None,
            _ => (),
        }
    }
    state
}

/// Makes the counters equal, close to each other or far apart. The tickets of the root's members are close to them, often shared, and never too large if watched.
fn make_ticket_root(random: &mut Random, tree: &Tree, state: &mut State) {
    state.tails[ROOT] = None;
    state.grant = random_start(random);
    state.ticket = if random.one_in(2) { state.grant.wrapping_add(random.below(6) as u16) } else { random.below(65_536) as u16 };
    let next = state.grant.wrapping_add(1);
    let near = if random.one_in(3) { [next; 5] } else { [state.grant, next, next.wrapping_add(1), state.ticket.wrapping_sub(1), state.ticket] };
    for record in members(tree, ROOT) {
        if !random.one_in(4) {
            state.statuses[record as usize] = random.pick(&near) as u64;
        }
    }
    for thread in (0..tree.threads).filter(|&thread| state.places[thread] == Place::Watch) {
        let status = &mut state.statuses[tree.record(thread, ROOT)];
        *status = if *status > u16::MAX as u64 { random.pick(&near) as u64 } else { *status };
    }
}

/// The records of a domain's members.
fn members(tree: &Tree, domain: usize) -> Vec<u16> {
    let threads = (0..tree.threads).filter(|&thread| tree.home(thread) == domain);
    let children = (1..tree.domains).filter(|&child| tree.parent(child) == domain);
    threads.chain(children.map(domain_record)).map(|record| record as u16).collect()
}

fn none_or_one(random: &mut Random, members: &[u16]) -> Option<u16> {
    if members.is_empty() || random.one_in(3) {
        None
    } else {
        Some(random.pick(members))
    }
}

fn random_word(random: &mut Random, tree: &Tree) -> u64 {
    let threshold = tree.thresholds[random.below(tree.domains)] as u64;
    let near = [0, 1, 2, threshold.wrapping_sub(1), threshold, threshold + 1, u64::MAX - 2, ACQUIRE_PARENT, WAIT, random.word()];
    random.pick(&near)
}

fn domain_on_path(random: &mut Random, tree: &Tree, thread: usize) -> usize {
    let mut domain = tree.home(thread);
    while domain != ROOT && random.one_in(2) {
        domain = tree.parent(domain);
    }
    domain
}

fn random_place(random: &mut Random, tree: &Tree, thread: usize) -> Place {
    let domain = domain_on_path(random, tree, thread);
    let (at, member) = (domain as u8, random.pick(&members(tree, domain)));
    if tree.is_ticket(domain) {
        return random.pick(&[Place::Idle, Place::Inside, Place::Draw, Place::Watch, Place::Watch, Place::Watch, Place::Raise, Place::Raise]);
    }
    match random.below(11) {
        0 => Place::Idle,
        1 => Place::Prep(at),
        2 => Place::Swap(at),
        3 => Place::Link(at, member),
        4 => Place::Wait(at),
        5 => Place::Inside,
        6 if domain != ROOT => Place::Check(at),
        6 | 7 => Place::Help(at),
        8 => Place::Cas(at),
        9 => Place::Linger(at),
        _ => Place::Grant(at, member, random_word(random, tree)),
    }
}

/// Changes one word, often to one that is not well formed. It may be in an unused slot or in record 256.
pub fn spoil(random: &mut Random, tree: &Tree, words: &mut StateWords) {
    let thread = used_or_not(random, tree.threads, THREAD_ROOM);
    let domain = used_or_not(random, tree.domains, DOMAIN_ROOM);
    let record = random.pick(&[thread, domain_record(domain), domain_record(ROOT)]);
    let near = [1, 257, 258, 320, 321, 65_535, random.below(330) as u16];
    let other = random.pick(&near);
    match random.below(16) {
        0 => words.tails[domain] = other,
        1 => words.nexts[record] = other,
        2 => words.statuses[record] = random_word(random, tree),
        3 => words.places.rows[thread] = random.below(16) as u8,
        4 => words.places.domains[thread] = random.below(66) as u8,
        5 => words.places.peers[thread] = other,
        6 => words.places.words[thread] = random_word(random, tree),
        7..=10 => spoil_counter(random, tree, &mut words.counters),
        _ => spoil_root(random, tree, words),
    }
}

/// Changes one counter. It may be the root's or in an unused slot, and the new number is usually around a limit.
fn spoil_counter(random: &mut Random, tree: &Tree, counters: &mut Counters) {
    let domain = if random.one_in(4) { ROOT } else { used_or_not(random, tree.domains, DOMAIN_ROOM) };
    let threshold = tree.thresholds[domain] as u64;
    let about = [1, threshold, threshold + 1, 65_535, 65_536, MOST_COUNTED, MOST_COUNTED + 1, u64::MAX, random.word()];
    let count = random.pick(&about);
    match random.below(3) {
        0 => counters.entries[domain] = count,
        1 => counters.tenures[domain] = count,
        _ => counters.longest[domain] = count,
    }
}

/// Changes one word in a way that may be well formed at the other kind of root.
fn spoil_root(random: &mut Random, tree: &Tree, words: &mut StateWords) {
    let thread = random.below(tree.threads);
    let member = random.pick(&members(tree, ROOT));
    let (row, watching) = (random.pick(&[1, 2, 4, 7, 8, 9]), PlaceWords::of(Place::Watch));
    match random.below(6) {
        0 => words.places.set(thread, PlaceWords { row: random.between(11, 13) as u8, ..PlaceWords::default() }),
        1 => words.places.set(thread, PlaceWords { row, ..PlaceWords::default() }),
        2 => words.places.set(thread, PlaceWords::of(random.pick(&[Place::Link(0, member), Place::Grant(0, member, 0)]))),
        3 => words.tails[ROOT] = member + 1,
        4 => {
            words.places.set(thread, watching);
            words.statuses[tree.record(thread, ROOT)] = random.pick(&[65_535, 65_536, 1 << 16 | words.grant as u64, ACQUIRE_PARENT, WAIT]);
        }
        _ => (words.ticket, words.grant) = random.pick(&[(0, 1), (1, 0), (65_535, 65_535), (65_535, 0), (0, 65_535)]),
    }
}

/// Usually a slot in use, sometimes the first unused one, sometimes any slot of the array.
fn used_or_not(random: &mut Random, used: usize, room: usize) -> usize {
    match random.below(6) {
        0 => random.below(room),
        1 => used % room,
        _ => random.below(used),
    }
}
