//! Random lock files: valid, breaking a limit, and damaged as bytes.

use crate::draft::{random_draft, Draft, Size, MOST_DOMAINS};
use crate::lock_file::{LONGEST_FILE, TICKET_ROOT_BIT};
use crate::random::Random;
use crate::schedules::{schedule, STYLES};

pub fn random_file(random: &mut Random) -> Vec<u8> {
    match random.below(400) {
        0 => overlong(random),
        1..=9 => noise(random),
        10..=199 => valid_draft(random).write(random),
        200..=299 => broken_draft(random).write(random),
        _ => damaged(random),
    }
}

/// Any bytes, most of them low, so the reader gets far.
fn noise(random: &mut Random) -> Vec<u8> {
    let length = random.between(0, 40);
    let bound = random.pick(&[2, 4, 256]);
    let mut file: Vec<u8> = (0..length).map(|_| random.below(bound) as u8).collect();
    if random.one_in(3) {
        file.iter_mut().take(1).for_each(|first| *first |= TICKET_ROOT_BIT);
    }
    file
}

/// A draft that is accepted, with a schedule.
pub fn valid_draft(random: &mut Random) -> Draft {
    let size = Size { domains: random.pick(&[1, 3, 8, 16, 64]), threads: random.pick(&[1, 3, 6, 16, 16, 256]) };
    let mut draft = random_draft(random, size);
    let length = match random.below(500) {
        0 => LONGEST_FILE / 2,
        1..=20 => random.between(0, 2000),
        21..=200 => random.between(0, 200),
        _ => random.between(0, 40),
    };
    let style = random.pick(&STYLES);
    draft.schedule = schedule(random, &draft.tree(), style, length);
    cut_to_fit(&mut draft);
    draft
}

/// A file can hold this many entries even after its longest head.
fn cut_to_fit(draft: &mut Draft) {
    let head = 3 + 4 * draft.parents.len() + 2 * draft.homes.len();
    draft.schedule.truncate((LONGEST_FILE - head) / 2);
}

/// A file of 65,536 bytes or a few more: a valid file followed by entries of thread 0.
fn overlong(random: &mut Random) -> Vec<u8> {
    let mut file = valid_draft(random).write(random);
    file.resize(LONGEST_FILE + random.between(0, 3), 0);
    file
}

/// A draft with one to three limits broken, to test the order of the refusals.
pub fn broken_draft(random: &mut Random) -> Draft {
    let mut draft = valid_draft(random);
    for _ in 0..random.between(1, 3) {
        match random.below(12) {
            0 => break_number_of_domains(random, &mut draft),
            1 => break_number_of_threads(random, &mut draft),
            2 => break_parent(random, &mut draft),
            3 => break_depth(random, &mut draft),
            4 => break_threshold(random, &mut draft),
            5 | 6 => break_home(random, &mut draft),
            7 | 8 => empty_a_home(random, &mut draft),
            9 | 10 => add_empty_domain(random, &mut draft),
            _ => break_entry(random, &mut draft),
        }
    }
    draft
}

fn set_domains(random: &mut Random, draft: &mut Draft, domains: usize) {
    while draft.parents.len() < domains {
        draft.parents.push(random.below(draft.parents.len().max(1)) as u8);
        draft.thresholds.push(random.between(1, 20) as u16);
    }
    draft.parents.truncate(domains);
    draft.thresholds.truncate(domains);
    draft.domains = domains as u8;
}

fn break_number_of_domains(random: &mut Random, draft: &mut Draft) {
    let domains = random.pick(&[0, 63, 64, 65, 66, 67, 126, MOST_DOMAINS]);
    set_domains(random, draft, domains);
}

fn break_number_of_threads(random: &mut Random, draft: &mut Draft) {
    let threads = if random.one_in(30) { random.between(257, 20_000) } else { random.pick(&[0, 255, 256, 257, 258, 300, 512]) };
    draft.homes.resize(threads, random.below(4) as u8);
    draft.threads = threads as u16;
    draft.schedule.truncate(100);
}

fn break_parent(random: &mut Random, draft: &mut Draft) {
    if draft.parents.len() > 1 {
        let domain = random.between(1, draft.parents.len() - 1);
        draft.parents[domain] = if random.one_in(2) { domain } else { random.between(domain, 255) } as u8;
    }
}

/// Adds a chain of domains after the existing ones that reaches level 7 or stops just short of it.
fn break_depth(random: &mut Random, draft: &mut Draft) {
    let start = draft.parents.len().max(1);
    let end = (start + random.between(4, 8)).min(MOST_DOMAINS);
    set_domains(random, draft, end);
    for domain in start..draft.parents.len() {
        draft.parents[domain] = (domain - 1) as u8;
    }
    draft.homes.iter_mut().for_each(|home| *home = draft.domains - 1);
}

fn break_threshold(random: &mut Random, draft: &mut Draft) {
    if !draft.thresholds.is_empty() {
        let domain = random.below(draft.thresholds.len());
        draft.thresholds[domain] = 0;
    }
}

fn break_home(random: &mut Random, draft: &mut Draft) {
    if !draft.homes.is_empty() {
        let thread = random.below(draft.homes.len());
        let near = [0, draft.domains.wrapping_sub(1), draft.domains, random.below(256) as u8];
        draft.homes[thread] = random.pick(&near);
    }
}

/// Moves the threads of one home to another.
fn empty_a_home(random: &mut Random, draft: &mut Draft) {
    if !draft.homes.is_empty() {
        let left = random.pick(&draft.homes);
        let others: Vec<u8> = draft.homes.iter().copied().filter(|&home| home != left).collect();
        if !others.is_empty() {
            let other = random.pick(&others);
            draft.homes.iter_mut().filter(|home| **home == left).for_each(|home| *home = other);
        }
    }
}

/// Adds a domain under one that has child domains.
fn add_empty_domain(random: &mut Random, draft: &mut Draft) {
    if draft.parents.len() > 1 && draft.parents.len() < MOST_DOMAINS {
        let sibling = random.between(1, draft.parents.len() - 1);
        draft.parents.push(draft.parents[sibling]);
        draft.thresholds.push(random.between(1, 20) as u16);
        draft.domains += 1;
    }
}

fn break_entry(random: &mut Random, draft: &mut Draft) {
    if !draft.schedule.is_empty() {
        let position = random.below(draft.schedule.len());
        let near = [draft.threads, draft.threads.wrapping_add(1), 255, 256, random.below(65_536) as u16, 65_535];
        draft.schedule[position] = random.pick(&near);
    }
}

/// A valid file, or one that breaks a limit, with its bytes changed one to three times.
fn damaged(random: &mut Random) -> Vec<u8> {
    let draft = if random.one_in(4) { broken_draft(random) } else { valid_draft(random) };
    let mut file = draft.write(random);
    for _ in 0..random.between(1, 3) {
        damage(random, &mut file);
    }
    file
}

fn damage(random: &mut Random, file: &mut Vec<u8>) {
    if file.is_empty() {
        return;
    }
    let head = file.len().min(60);
    let position = if random.one_in(2) { random.below(head) } else { random.below(file.len()) };
    match random.below(6) {
        0 | 1 => file[position] ^= 1 << random.below(8),
        2 => file[position] = random.below(256) as u8,
        3 => file.truncate(position),
        4 => file.insert(position, random.below(256) as u8),
        _ => {
            let more = random.between(1, 3);
            file.extend(random.bytes(more));
        }
    }
}
