//! The lock file of document 01, with document 02's first byte for a ticket root; its reader with refusals 1 to 3; and the file call with its listing.

use crate::refusals::*;
use crate::table::*;
use crate::words::TreeWords;

pub const LONGEST_FILE: usize = 65_536;
pub const TICKET_ROOT_BIT: u8 = 128;
pub const PARENT_BIT: u8 = 1;
pub const THRESHOLD_BIT: u8 = 2;
pub const HOME_BIT: u8 = 1;
pub const PARENT_ABSENT: u8 = 0;
pub const THRESHOLD_ABSENT: u16 = 16;

/// What the file call returns: 0 and 0 if accepted, and the length of the listing.
#[derive(Clone, Copy, Debug, Default, PartialEq, Eq)]
pub struct FileAnswer {
    pub number: u32,
    pub place: u32,
    pub length: u32,
}

struct Reader<'a> {
    file: &'a [u8],
    position: usize,
}

impl Reader<'_> {
    fn byte(&mut self) -> Outcome<u8> {
        match self.file.get(self.position) {
            None => refuse(2, self.file.len()),
            Some(&byte) => {
                self.position += 1;
                Ok(byte)
            }
        }
    }

    fn two_bytes(&mut self) -> Outcome<u16> {
        let low = self.byte()?;
        let high = self.byte()?;
        Ok(u16::from_le_bytes([low, high]))
    }

    fn bit_map(&mut self, meaning: u8) -> Outcome<u8> {
        let place = self.position;
        let map = self.byte()?;
        if map & !meaning != 0 {
            refuse(3, place)
        } else {
            Ok(map)
        }
    }

    /// The first byte is the number of domains, and 128 more for a ticket root.
    /// Domains that do not fit the arrays are read but not kept. The tree is refused for their number.
    fn domains(&mut self, tree: &mut Tree) -> Outcome<()> {
        let first = self.byte()?;
        tree.ticket_root = first >= TICKET_ROOT_BIT;
        tree.domains = (first % TICKET_ROOT_BIT) as usize;
        for domain in 1..tree.domains {
            let map = self.bit_map(PARENT_BIT | THRESHOLD_BIT)?;
            let parent = if map & PARENT_BIT != 0 { self.byte()? } else { PARENT_ABSENT };
            let threshold = if map & THRESHOLD_BIT != 0 { self.two_bytes()? } else { THRESHOLD_ABSENT };
            if domain < DOMAIN_ROOM {
                tree.parents[domain] = parent;
                tree.thresholds[domain] = threshold;
            }
        }
        Ok(())
    }

    fn threads(&mut self, tree: &mut Tree) -> Outcome<()> {
        tree.threads = self.two_bytes()? as usize;
        let mut home = 0;
        for thread in 0..tree.threads {
            if self.bit_map(HOME_BIT)? & HOME_BIT != 0 {
                home = self.byte()?;
            }
            if thread < THREAD_ROOM {
                tree.homes[thread] = home;
            }
        }
        Ok(())
    }
}

/// The entries of a schedule given as bytes.
pub fn entries(schedule: &[u8]) -> impl Iterator<Item = u16> + '_ {
    schedule.chunks_exact(2).map(|entry| u16::from_le_bytes([entry[0], entry[1]]))
}

/// Tree and schedule of a file; refusals 1 to 3.
pub fn read(file: &[u8]) -> Outcome<(Tree, &[u8])> {
    if file.len() > LONGEST_FILE {
        return refuse(1, 0);
    }
    let mut tree = Tree::new();
    let mut reader = Reader { file, position: 0 };
    reader.domains(&mut tree)?;
    reader.threads(&mut tree)?;
    let schedule = &file[reader.position..];
    if schedule.len() % 2 != 0 {
        return refuse(2, file.len());
    }
    Ok((tree, schedule))
}

/// What reading a file without running it returns: 0 and 0 if accepted, the number of entries in its schedule, and its tree. If refused, all are 0.
#[repr(C)]
#[derive(Clone, Copy, Debug, PartialEq, Eq)]
pub struct ReadReply {
    pub number: u32,
    pub place: u32,
    pub length: u32,
    pub tree: TreeWords,
}

/// The signature of the call, for the reference and the library.
pub type ReadFile = fn(&[u8], &mut [u16]) -> ReadReply;

/// Writes the schedule at the front of its buffer, if it fits.
pub fn read_file(file: &[u8], buffer: &mut [u16]) -> ReadReply {
    match read(file) {
        Err(Refusal { number, place }) => ReadReply { number, place, length: 0, tree: TreeWords::of(&Tree::new()) },
        Ok((tree, schedule)) => {
            let schedule: Vec<u16> = entries(schedule).collect();
            if let Some(front) = buffer.get_mut(..schedule.len()) {
                front.copy_from_slice(&schedule);
            }
            ReadReply { number: 0, place: 0, length: schedule.len() as u32, tree: TreeWords::of(&tree) }
        }
    }
}

fn push_number(line: &mut Vec<u8>, number: u32) {
    if number >= 10 {
        push_number(line, number / 10);
    }
    line.push(b'0' + (number % 10) as u8);
}

fn listing(counts: Counts, trace: &[u16]) -> Vec<u8> {
    let mut listing = Vec::with_capacity(64 + 4 * trace.len());
    listing.extend_from_slice(b"ok");
    for number in [counts.steps, counts.entries, counts.stays, counts.root, counts.passed, counts.crossed] {
        listing.push(b' ');
        push_number(&mut listing, number);
    }
    listing.push(b'\n');
    for &thread in trace {
        push_number(&mut listing, thread as u32);
        listing.push(b'\n');
    }
    listing
}

/// The listing of an accepted file, before the output buffer is checked.
pub fn list_file(file: &[u8]) -> Outcome<Vec<u8>> {
    let (tree, schedule) = read(file)?;
    accept_tree(&tree)?;
    accept_entries(&tree, entries(schedule))?;
    let mut trace = Vec::with_capacity(schedule.len() / 2);
    let counts = run(&tree, &mut State::fresh_at(&tree, 0), entries(schedule), &mut trace);
    Ok(listing(counts, &trace))
}

fn fill(file: &[u8], output: &mut [u8]) -> Outcome<u32> {
    let listing = list_file(file)?;
    if output.len() < listing.len() {
        return refuse(14, 0);
    }
    output[..listing.len()].copy_from_slice(&listing);
    Ok(listing.len() as u32)
}

/// The file call: runs from a fresh lock and writes the listing at the front of the output buffer.
pub fn run_file(file: &[u8], output: &mut [u8]) -> FileAnswer {
    match fill(file, output) {
        Ok(length) => FileAnswer { number: 0, place: 0, length },
        Err(Refusal { number, place }) => FileAnswer { number, place, length: 0 },
    }
}

/// What the program prints. Its output buffer is as long as the longest file.
pub fn print(file: &[u8]) -> Vec<u8> {
    let mut output = vec![0; LONGEST_FILE];
    let answer = run_file(file, &mut output);
    if answer.number != 0 {
        return format!("refused {} {}\n", answer.number, answer.place).into_bytes();
    }
    output.truncate(answer.length as usize);
    output
}
