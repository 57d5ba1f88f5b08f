//! The cases of document 02's request (i), for the reference's reader.

use reference::text_tree::{read_text, TextAnswer};
use reference::words::TreeWords;

fn read(text: &str) -> TextAnswer {
    read_text(text.as_bytes())
}

fn refused(text: &str, number: u32, place: usize) {
    let answer = read(text);
    assert_eq!((answer.number, answer.place), (number, place), "{text}");
    let TreeWords { domains, threads, parents, thresholds, homes, ticket_root } = answer.tree;
    assert_eq!((domains, threads, parents, thresholds, homes, ticket_root), (0, 0, [0; 64], [0; 64], [0; 256], 0), "{text}");
}

/// The words of the tree's domains and threads, without the unused slots after them.
fn accepted(text: &str, parents: &[u8], thresholds: &[u16], homes: &[u8]) {
    let answer = read(text);
    assert_eq!((answer.number, answer.place), (0, 0), "{text}");
    let tree = answer.tree;
    assert_eq!((tree.domains as usize, tree.threads as usize, tree.ticket_root), (parents.len(), homes.len(), 0), "{text}");
    let (front, rest) = tree.parents.split_at(parents.len());
    assert!(front == parents && rest.iter().all(|&word| word == 0), "{text}");
    let (front, rest) = tree.thresholds.split_at(thresholds.len());
    assert!(front == thresholds && rest.iter().all(|&word| word == 0), "{text}");
    let (front, rest) = tree.homes.split_at(homes.len());
    assert!(front == homes && rest.iter().all(|&word| word == 0), "{text}");
}

fn children(count: usize) -> String {
    format!("({})", vec!["1(#1)"; count].join(" "))
}

#[test]
fn printed_example() {
    let example = "(2(#2) 16(#1))";
    accepted(example, &[0, 0, 0], &[0, 2, 16], &[1, 1, 2]);
    for cut in 0..example.len() {
        refused(&example[..cut], 15, cut);
    }
    refused(&format!("{example}\n"), 15, 14);
}

#[test]
fn order_of_numbers() {
    accepted("(1(2(#1) 3(#1)) 4(#2))", &[0, 0, 1, 1, 0], &[0, 1, 2, 3, 4], &[2, 3, 4, 4]);
}

#[test]
fn levels() {
    accepted("(1(1(1(1(1(#1))))))", &[0, 0, 1, 2, 3, 4], &[0, 1, 1, 1, 1, 1], &[5]);
    refused("(1(1(1(1(1(1(#1)))))))", 15, 11);
}

#[test]
fn numbers() {
    accepted("(#1)", &[0], &[0], &[0]);
    accepted("(65535(#1))", &[0, 0], &[0, 65535], &[1]);
    refused("(65536(#1))", 15, 5);
    refused("(655350(#1))", 15, 6);
    refused("(#0)", 15, 2);
    refused("(#01)", 15, 2);
    refused("(0(#1))", 15, 1);
    refused("(01(#1))", 15, 1);
}

#[test]
fn spaces_and_ends() {
    refused("", 15, 0);
    refused("()", 15, 1);
    refused("(2(#2)  1(#1))", 15, 7);
    refused("(2(#2) )", 15, 7);
    refused(" (#1)", 15, 0);
    refused("2(#2)", 15, 0);
}

#[test]
fn limits() {
    accepted(&children(63), &[0; 64], &[&[0][..], &[1; 63]].concat(), &(1..64).collect::<Vec<u8>>());
    refused(&children(64), 4, 0);
    accepted("(#256)", &[0], &[0], &[0; 256]);
    refused("(#257)", 5, 0);
    refused(&format!("(#{})", "9".repeat(300)), 5, 0);
    refused(&format!("(1(#999) {}", &children(64)[1..]), 4, 0);
    refused(&children(64)[..383], 15, 383);
}
