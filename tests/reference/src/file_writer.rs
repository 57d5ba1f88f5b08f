//! Writing the lock file, written from document 02, request (v).

use crate::lock_file::*;
use crate::refusals::*;
use crate::table::*;
use crate::words::TreeWords;

/// The signature of the call, for the reference and the library. Returns number, place and length.
pub type WriteFile = fn(&TreeWords, &[u16], &mut [u8]) -> FileAnswer;

/// Writes a bit map, and after it each field that does not have its default value.
fn push_entry(file: &mut Vec<u8>, fields: &[(u8, Option<Vec<u8>>)]) {
    file.push(fields.iter().filter(|(_, field)| field.is_some()).map(|(bit, _)| bit).sum());
    file.extend(fields.iter().filter_map(|(_, field)| field.clone()).flatten());
}

/// The file of an accepted tree and schedule.
pub fn shortest(tree: &Tree, schedule: &[u16]) -> Vec<u8> {
    let mut file = vec![tree.domains as u8 + if tree.ticket_root { TICKET_ROOT_BIT } else { 0 }];
    for domain in 1..tree.domains {
        let (parent, threshold) = (tree.parents[domain], tree.thresholds[domain]);
        let parent = (parent != PARENT_ABSENT).then(|| vec![parent]);
        let threshold = (threshold != THRESHOLD_ABSENT).then(|| threshold.to_le_bytes().to_vec());
        push_entry(&mut file, &[(PARENT_BIT, parent), (THRESHOLD_BIT, threshold)]);
    }
    file.extend((tree.threads as u16).to_le_bytes());
    for thread in 0..tree.threads {
        let before = if thread == 0 { 0 } else { tree.homes[thread - 1] };
        let home = tree.homes[thread];
        push_entry(&mut file, &[(HOME_BIT, (home != before).then(|| vec![home]))]);
    }
    file.extend(schedule.iter().flat_map(|entry| entry.to_le_bytes()));
    file
}

fn fill(words: &TreeWords, schedule: &[u16], buffer: &mut [u8]) -> Outcome<u32> {
    let tree = words.tree();
    accept_tree(&tree)?;
    refuse_if(11, schedule.len() > LONGEST_SCHEDULE)?;
    accept_entries(&tree, schedule.iter().copied())?;
    let file = shortest(&tree, schedule);
    refuse_if(1, file.len() > LONGEST_FILE)?;
    refuse_if(17, buffer.len() < file.len())?;
    buffer[..file.len()].copy_from_slice(&file);
    Ok(file.len() as u32)
}

/// Writes the file at the front of the buffer. A refused call leaves the buffer unchanged.
pub fn write_file(words: &TreeWords, schedule: &[u16], buffer: &mut [u8]) -> FileAnswer {
    match fill(words, schedule, buffer) {
        Ok(length) => FileAnswer { number: 0, place: 0, length },
        Err(Refusal { number, place }) => FileAnswer { number, place, length: 0 },
    }
}

/// Reads an accepted file, writes it again with a writer, and reads it again. Returns what is wrong with the result, if anything.
pub fn wrong_when_written_again(writer: WriteFile, file: &[u8]) -> Option<&'static str> {
    let (tree, schedule) = read(file).ok()?;
    let (words, schedule) = (TreeWords::of(&tree), entries(schedule).collect::<Vec<u16>>());
    let mut buffer = vec![0; LONGEST_FILE];
    let answer = writer(&words, &schedule, &mut buffer);
    if answer.number != 0 {
        return Some("is refused");
    }
    let written = &buffer[..answer.length as usize];
    match read(written) {
        Err(_) => Some("is no lock file"),
        Ok((tree, _)) if TreeWords::of(&tree) != words => Some("has another tree"),
        Ok((_, bytes)) if entries(bytes).ne(schedule) => Some("has another schedule"),
        Ok(_) if written.len() > file.len() => Some("is longer"),
        Ok(_) => None,
    }
}
