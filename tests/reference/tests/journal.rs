//! Cases of the check of a journal: entries and their defaults, each number and its place, and their order.

use reference::journal::{check_journal, write_entry, JournalAnswer};
use reference::text_tree::read_text;
use reference::words::TreeWords;

/// Two threads in the root.
fn tree() -> TreeWords {
    TreeWords { domains: 1, threads: 2, parents: [0; 64], thresholds: [0; 64], homes: [0; 256], ticket_root: 0 }
}

fn answer(journal: &[u8]) -> (u32, usize) {
    let JournalAnswer { number, place } = check_journal(&tree(), journal);
    (number, place)
}

/// Thread 0 enters, thread 1 waits, 0 leaves and grants, 1 enters.
const HANDED_OVER: [u8; 25] = [2, 1, 2, 2, 3, 1, 0, 1, 2, 1, 2, 1, 0, 3, 0, 0, 5, 2, 1, 2, 1, 3, 1, 0, 2];

#[test]
fn journals_of_steps() {
    assert_eq!(answer(&[]), (0, 0));
    assert_eq!(answer(&[3, 0, 0, 1, 3, 0, 0, 2]), (0, 0));
    assert_eq!(answer(&HANDED_OVER), (0, 0));
    let ticket = TreeWords { ticket_root: 1, ..tree() };
    assert_eq!(check_journal(&ticket, &[2, 2, 3, 1, 0, 1, 0]), JournalAnswer { number: 0, place: 0 });
}

#[test]
fn cut_off_or_another_bit() {
    for length in [1, 3, 5, 6, 7, 9, 11, 14, 15, 16, 18, 20, 22, 23, 24] {
        assert_eq!(answer(&HANDED_OVER[..length]).0, 25, "{length}");
    }
    assert_eq!(answer(&HANDED_OVER[..24]), (25, 21));
    assert_eq!(answer(&[2, 1, 4, 0, 0, 0]), (25, 2));
    assert_eq!(answer(&[128]), (25, 0));
}

#[test]
fn thread_before_kind() {
    assert_eq!(answer(&[3, 2, 0, 9]), (12, 0));
    assert_eq!(answer(&[2, 1, 3, 0, 1, 1]), (12, 2));
    assert_eq!(answer(&[0, 3, 2, 0, 9]), (26, 0));
    assert_eq!(answer(&[2, 1, 2, 1]), (26, 2));
    assert_eq!(answer(&[2, 9]), (26, 0));
}

#[test]
fn the_tree_comes_first() {
    assert_eq!(check_journal(&TreeWords { threads: 0, ..tree() }, &[128]), JournalAnswer { number: 5, place: 0 });
}

#[test]
fn defaults_are_left_out() {
    let mut journal = Vec::new();
    write_entry(&mut journal, 0, (0, 1), (false, false));
    write_entry(&mut journal, 0, (258, 0), (false, false));
    write_entry(&mut journal, 258, (258, 0), (false, false));
    write_entry(&mut journal, 258, (258, 0), (true, true));
    assert_eq!(journal, [2, 1, 1, 2, 1, 0, 3, 2, 1, 0]);
}

/// The sample with its tree, and the sample with another kind in its last entry.
#[test]
fn the_sample() {
    let tree = read_text(include_bytes!("../../../samples/printed-example.tree")).tree;
    let mut journal = include_bytes!("../../../samples/printed-example.journal").to_vec();
    assert_eq!(check_journal(&tree, &journal), JournalAnswer { number: 0, place: 0 });
    let length = journal.len();
    journal[length - 1] = 3;
    assert_eq!(check_journal(&tree, &journal), JournalAnswer { number: 26, place: length - 4 });
}
