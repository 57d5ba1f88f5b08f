//! Trees as text, read as request (i) of document 02 says: a grammar, the places of its refusals, and the limits of document 01.
//! Written from the document: the reader takes one production after another from the front of the text.

use crate::table::{DOMAIN_ROOM, THREAD_ROOM};
use crate::words::TreeWords;

/// The deepest level; the root is at level 1.
const LEVELS: usize = 6;
const LARGEST_THRESHOLD: u32 = 65_535;

/// What reading a text returns.
#[derive(Clone, Copy, Debug, PartialEq, Eq)]
#[repr(C)]
pub struct TextAnswer {
    pub number: u32,
    pub place: usize,
    pub tree: TreeWords,
}

/// A domain as it was read: its parent and its threshold.
struct Domain {
    parent: usize,
    threshold: u32,
}

/// The text, how much of it has been read, and the result so far. Threads are kept as runs with the same home, so no count is too large.
struct Reader<'a> {
    text: &'a [u8],
    read: usize,
    domains: Vec<Domain>,
    threads: Vec<(usize, u128)>,
}

/// The position of the first byte with which no text could continue.
struct Leaves(usize);

impl Reader<'_> {
    fn next(&self) -> Option<u8> {
        self.text.get(self.read).copied()
    }

    fn leaves<T>(&self) -> Result<T, Leaves> {
        Err(Leaves(self.read))
    }

    fn take(&mut self, byte: u8) -> Result<(), Leaves> {
        if self.next() != Some(byte) {
            return self.leaves();
        }
        self.read += 1;
        Ok(())
    }

    /// A number from 1 up, without leading zeros. A digit that would make it larger than the largest is not read.
    fn number(&mut self, largest: Option<u32>) -> Result<u128, Leaves> {
        if !matches!(self.next(), Some(b'1'..=b'9')) {
            return self.leaves();
        }
        let mut value: u128 = 0;
        while let Some(digit @ b'0'..=b'9') = self.next() {
            let longer = value.saturating_mul(10).saturating_add(u128::from(digit - b'0'));
            if largest.is_some_and(|largest| longer > u128::from(largest)) {
                break;
            }
            value = longer;
            self.read += 1;
        }
        Ok(value)
    }

    /// The contents of parentheses: the tree of the root, or of a domain with this number and level.
    fn tree(&mut self, domain: usize, level: usize) -> Result<(), Leaves> {
        self.take(b'(')?;
        if self.next() == Some(b'#') {
            self.read += 1;
            let count = self.number(None)?;
            self.threads.push((domain, count));
        } else if level == LEVELS {
            return self.leaves();
        } else {
            self.domain(domain, level + 1)?;
            while self.next() == Some(b' ') {
                self.read += 1;
                self.domain(domain, level + 1)?;
            }
        }
        self.take(b')')
    }

    /// A threshold and a tree. The number of a domain is the number of parentheses opened before its own.
    fn domain(&mut self, parent: usize, level: usize) -> Result<(), Leaves> {
        let threshold = self.number(Some(LARGEST_THRESHOLD))? as u32;
        if self.next() != Some(b'(') {
            return self.leaves();
        }
        let number = self.domains.len();
        self.domains.push(Domain { parent, threshold });
        self.tree(number, level)
    }

    fn text(&mut self) -> Result<(), Leaves> {
        self.tree(0, 1)?;
        match self.next() {
            None => Ok(()),
            Some(_) => self.leaves(),
        }
    }
}

/// A text always gives a queue root.
const NO_TREE: TreeWords =
    TreeWords { domains: 0, threads: 0, parents: [0; DOMAIN_ROOM], thresholds: [0; DOMAIN_ROOM], homes: [0; THREAD_ROOM], ticket_root: 0 };

fn refused(number: u32, place: usize) -> TextAnswer {
    TextAnswer { number, place, tree: NO_TREE }
}

/// Reads a text. It is refused by 15 at its place, then by 4, then by 5. Otherwise the words of the tree are returned.
pub fn read_text(text: &[u8]) -> TextAnswer {
    let mut reader = Reader { text, read: 0, domains: vec![Domain { parent: 0, threshold: 0 }], threads: Vec::new() };
    if let Err(Leaves(place)) = reader.text() {
        return refused(15, place);
    }
    if reader.domains.len() > DOMAIN_ROOM {
        return refused(4, 0);
    }
    let threads = reader.threads.iter().fold(0u128, |sum, &(_, count)| sum.saturating_add(count));
    if threads > THREAD_ROOM as u128 {
        return refused(5, 0);
    }
    let mut tree = NO_TREE;
    for (number, domain) in reader.domains.iter().enumerate() {
        tree.parents[number] = domain.parent as u8;
        tree.thresholds[number] = domain.threshold as u16;
    }
    for (domain, count) in reader.threads {
        for _ in 0..count {
            tree.homes[tree.threads as usize] = domain as u8;
            tree.threads += 1;
        }
    }
    tree.domains = reader.domains.len() as u32;
    TextAnswer { number: 0, place: 0, tree }
}
