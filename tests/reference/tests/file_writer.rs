//! Cases of writing the lock file: the printed example, defaults at their edges, both kinds of root, the longest file, refusals in order.

use reference::file_writer::write_file;
use reference::lock_file::{FileAnswer, LONGEST_FILE};
use reference::words::TreeWords;

fn tree(parents: &[u8], thresholds: &[u16], homes: &[u8]) -> TreeWords {
    let mut words = TreeWords { domains: parents.len() as u32, threads: homes.len() as u32, parents: [0; 64], thresholds: [0; 64], homes: [0; 256], ticket_root: 0 };
    words.parents[..parents.len()].copy_from_slice(parents);
    words.thresholds[..thresholds.len()].copy_from_slice(thresholds);
    words.homes[..homes.len()].copy_from_slice(homes);
    words
}

fn written(words: &TreeWords, schedule: &[u16]) -> Vec<u8> {
    let mut buffer = vec![7; 100];
    let answer = write_file(words, schedule, &mut buffer);
    let length = answer.length as usize;
    assert_eq!(answer, FileAnswer { number: 0, place: 0, length: length as u32 });
    assert!(buffer[length..].iter().all(|&byte| byte == 7));
    buffer.truncate(length);
    buffer
}

fn refusal(words: &TreeWords, schedule: &[u16], room: usize) -> (u32, u32) {
    let mut buffer = vec![7; room];
    let answer = write_file(words, schedule, &mut buffer);
    assert_eq!((answer.length, buffer), (0, vec![7; room]));
    (answer.number, answer.place)
}

#[test]
fn the_printed_example() {
    let schedule = [0, 0, 0, 0, 1, 1, 1, 1, 0, 0, 0, 1, 2, 2, 2, 2, 2, 1, 1, 1, 1, 2];
    let file = written(&tree(&[0, 0, 0], &[0, 2, 16], &[1, 1, 2]), &schedule);
    assert_eq!(file[..12], [3, 2, 2, 0, 0, 3, 0, 1, 1, 0, 1, 2]);
    assert_eq!(file[12..], schedule.map(|entry| [entry as u8, 0]).concat());
}

#[test]
fn defaults_at_their_edges() {
    let file = written(&tree(&[0, 0, 0, 1, 1, 0], &[0, 15, 16, 16, 17, 272], &[2, 3, 4, 5]), &[]);
    assert_eq!(file, [6, 2, 15, 0, 0, 1, 1, 3, 1, 17, 0, 2, 16, 1, 4, 0, 1, 2, 1, 3, 1, 4, 1, 5]);
    assert_eq!(written(&tree(&[0, 0, 0], &[0, 16, 16], &[1, 1, 2, 2, 1]), &[4]), [3, 0, 0, 5, 0, 1, 1, 0, 1, 2, 0, 1, 1, 4, 0]);
}

#[test]
fn a_ticket_root_whatever_number_names_it() {
    for ticket_root in [1, 2, 128, 256, u32::MAX] {
        assert_eq!(written(&TreeWords { ticket_root, ..tree(&[0], &[0], &[0, 0]) }, &[]), [129, 2, 0, 0, 0]);
    }
}

#[test]
fn the_longest_file_and_one_entry_more() {
    let one = tree(&[0], &[0], &[0]);
    let mut buffer = vec![7; LONGEST_FILE + 2];
    assert_eq!(write_file(&one, &[0; 32_766], &mut buffer), FileAnswer { number: 0, place: 0, length: 65_536 });
    assert_eq!(buffer[LONGEST_FILE..], [7, 7]);
    assert_eq!(refusal(&one, &[0; 32_767], LONGEST_FILE + 2), (1, 0));
    assert_eq!(refusal(&one, &[0; 32_767], 0), (1, 0));
    assert_eq!(refusal(&one, &[0; 32_766], LONGEST_FILE - 1), (17, 0));
}

#[test]
fn refusals_in_order() {
    let one = tree(&[0], &[0], &[0]);
    assert_eq!(refusal(&one, &[0; 65_537], 0), (11, 0));
    assert_eq!(refusal(&one, &[0, 1], 0), (12, 1));
    assert_eq!(refusal(&one, &[], 3), (17, 0));
    assert_eq!(refusal(&tree(&[0, 0, 0], &[0, 2, 16], &[1]), &[9], 0), (16, 2));
    assert_eq!(refusal(&tree(&[], &[], &[0]), &[], 9), (4, 0));
}
