//! Drafts of lock files: the contents of a file before it is written as bytes, even if it breaks a limit.

use crate::lock_file::*;
use crate::random::Random;
use crate::refusals::{leaves, occupied};
use crate::table::*;

/// The most domains that a file can name. Its first byte also holds the kind of root.
pub const MOST_DOMAINS: usize = TICKET_ROOT_BIT as usize - 1;

/// The first domain is the root. No file holds its parent or threshold.
#[derive(Clone, Debug)]
pub struct Draft {
    pub domains: u8,
    pub threads: u16,
    pub parents: Vec<u8>,
    pub thresholds: Vec<u16>,
    pub homes: Vec<u8>,
    pub schedule: Vec<u16>,
    pub ticket_root: bool,
}

/// How large a random tree may be.
#[derive(Clone, Copy, Debug)]
pub struct Size {
    pub domains: usize,
    pub threads: usize,
}

impl Draft {
    /// The tree of a draft whose numbers fit the arrays.
    pub fn tree(&self) -> Tree {
        let mut tree = Tree::new();
        tree.domains = self.parents.len();
        tree.threads = self.homes.len();
        tree.parents[..self.parents.len()].copy_from_slice(&self.parents);
        tree.thresholds[..self.thresholds.len()].copy_from_slice(&self.thresholds);
        tree.homes[..self.homes.len()].copy_from_slice(&self.homes);
        tree.ticket_root = self.ticket_root;
        tree
    }

    /// Writes the file. A field with its default value is sometimes written and sometimes left out.
    pub fn write(&self, random: &mut Random) -> Vec<u8> {
        let mut file = vec![self.domains | (self.ticket_root as u8 * TICKET_ROOT_BIT)];
        for domain in 1..self.parents.len() {
            write_domain(&mut file, self.parents[domain], self.thresholds[domain], random);
        }
        file.extend_from_slice(&self.threads.to_le_bytes());
        let mut before = 0;
        for &home in &self.homes {
            write_home(&mut file, before, home, random);
            before = home;
        }
        file.extend(self.schedule.iter().flat_map(|thread| thread.to_le_bytes()));
        file
    }
}

fn write_domain(file: &mut Vec<u8>, parent: u8, threshold: u16, random: &mut Random) {
    let says_parent = parent != PARENT_ABSENT || random.one_in(4);
    let says_threshold = threshold != THRESHOLD_ABSENT || random.one_in(4);
    file.push((says_parent as u8 * PARENT_BIT) | (says_threshold as u8 * THRESHOLD_BIT));
    if says_parent {
        file.push(parent);
    }
    if says_threshold {
        file.extend_from_slice(&threshold.to_le_bytes());
    }
}

fn write_home(file: &mut Vec<u8>, before: u8, home: u8, random: &mut Random) {
    let says_home = home != before || random.one_in(4);
    file.push(says_home as u8 * HOME_BIT);
    if says_home {
        file.push(home);
    }
}

/// A random tree that is accepted, with either kind of root and an empty schedule.
pub fn random_draft(random: &mut Random, size: Size) -> Draft {
    let domains = random.between(1, size.domains);
    let parents = random_parents(random, domains);
    let thresholds = random_thresholds(random, domains);
    let threads = random.between(1, size.threads);
    let (homes, schedule, ticket_root) = (Vec::new(), Vec::new(), random.one_in(2));
    let mut draft = Draft { domains: domains as u8, threads: threads as u16, parents, thresholds, homes, schedule, ticket_root };
    draft.homes = random_homes(random, &draft.tree(), threads);
    leave_out_empty_domains(&mut draft);
    draft
}

/// Removes domains without a thread under them, so that 16 does not refuse the tree. The others keep their order.
fn leave_out_empty_domains(draft: &mut Draft) {
    let occupied = occupied(&draft.tree());
    let kept: Vec<usize> = (0..draft.parents.len()).filter(|&domain| occupied[domain]).collect();
    let number = |domain: u8| kept.iter().position(|&other| other == domain as usize).unwrap() as u8;
    draft.parents = kept.iter().map(|&domain| number(draft.parents[domain])).collect();
    draft.thresholds = kept.iter().map(|&domain| draft.thresholds[domain]).collect();
    draft.homes.iter_mut().for_each(|home| *home = number(*home));
    draft.domains = kept.len() as u8;
}

/// Chooses parents in one of three ways: the domain just before, one of the last few, or any. The tree is never so deep that 7 would refuse it.
fn random_parents(random: &mut Random, domains: usize) -> Vec<u8> {
    let reach = random.pick(&[1, 3, DOMAIN_ROOM]);
    let (mut parents, mut levels) = (vec![0], vec![1]);
    for domain in 1..domains {
        let near = domain - random.between(1, reach.min(domain));
        let parent = if levels[near] < DEEPEST_LEVEL { near } else { parents[random.below(domain)] as usize };
        parents.push(parent as u8);
        levels.push(levels[parent] + 1);
    }
    parents
}

fn random_thresholds(random: &mut Random, domains: usize) -> Vec<u16> {
    let habit = random.below(5);
    (0..domains)
        .map(|_| match habit {
            0 => 1,
            1 | 2 => random.between(1, 3) as u16,
            3 => random.pick(&[1, 2, 3, THRESHOLD_ABSENT, 255, 256, 65_535]),
            _ => random.between(1, 65_535) as u16,
        })
        .collect()
}

/// Homes spread over all leaves, or crowded in a few of them.
fn random_homes(random: &mut Random, tree: &Tree, threads: usize) -> Vec<u8> {
    let leaves = leaves(tree);
    let all: Vec<u8> = (0..tree.domains).filter(|&domain| leaves[domain]).map(|domain| domain as u8).collect();
    let some: Vec<u8> = (0..random.between(1, 4)).map(|_| random.pick(&all)).collect();
    let among = if random.one_in(2) { all } else { some };
    (0..threads).map(|_| random.pick(&among)).collect()
}
