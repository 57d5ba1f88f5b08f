//! The small changes that can be made in a file of definitions: a constant, a comparison, a branch, a constructor, a field.

use crate::source::{words, Word};

pub struct Change {
    pub start: usize,
    pub end: usize,
    pub text: String,
}

/// Each row has words of one type. Any of them may replace any other in its row.
const ALIKE: &[&[&str]] = &[
    &["eqb", "ltb", "leb"],
    &["≤", "<"],
    &["≡", "≢"],
    &["true", "false"],
    &["&&", "||"],
    &["+", "-", "*"],
    &["take", "drop"],
    &["all_below", "any_below"],
    &["Idle", "Inside", "Invalid"],
    &["Prep", "Swap", "Wait", "Check", "Help", "Cas", "Linger"],
    &["stay", "other", "root_entry", "passed_entry"],
    &["is_stay", "is_root_entry", "is_passed_entry", "is_entry"],
    &["begins", "ends"],
    &["unlocked", "cohort_start", "acquire_parent", "wait_word"],
    &["none", "locked", "acquire_parent", "wait_word"],
    &["tail", "next", "status"],
    &["with_tail", "with_next", "with_status"],
    &["lock_at", "next_at", "status_at"],
    &["store_lock", "store_next", "store_status"],
    &["from_acquire", "from_release", "after_17", "after_29", "after_31", "after_41", "after_43", "after_82"],
    &["outside", "critical", "line_7", "line_9", "line_13", "line_16", "line_17", "line_25", "line_29"],
    &["line_31", "line_41", "line_43", "line_66", "line_67", "line_69", "line_72", "line_82"],
    &["line_10", "line_11", "line_14", "line_27", "line_35", "line_53", "line_57", "line_58", "line_68", "line_71"],
    &["line_36", "line_37", "line_54", "line_55", "line_59"],
    &[".parent", ".threshold", ".home"],
    &[".parents", ".thresholds", ".homes"],
    &[".tails", ".nexts", ".statuses"],
    &[".locks", ".nexts", ".statuses"],
    &[".number", ".place"],
    &[".domains", ".threads"],
    &[".steps", ".entries", ".stays", ".root", ".passed"],
    &[".row", ".domain", ".peer", ".word"],
    &[".thread", ".domain"],
];

/// Words that are removed if they come before an argument of the same type.
const LEFT_OUT: &[&str] = &["not", "suc"];

pub fn changes(text: &str) -> Vec<Change> {
    let words = words(text);
    let mut found = Vec::new();
    for (at, word) in words.iter().enumerate() {
        let name = &text[word.start..word.end];
        for row in ALIKE.iter().filter(|row| row.contains(&name)) {
            for other in row.iter().filter(|other| **other != name) {
                found.push(Change { start: word.start, end: word.end, text: other.to_string() });
            }
        }
        if LEFT_OUT.contains(&name) {
            found.push(Change { start: word.start, end: word.end, text: String::new() });
        }
        if let Ok(number) = name.parse::<u128>() {
            constants(number, word, &mut found);
        }
        if name == "cond" {
            branches(text, &words, at + 1, &mut found);
        }
    }
    found
}

/// Adds one, and subtracts one.
fn constants(number: u128, word: &Word, found: &mut Vec<Change>) {
    let mut other = |value: Option<u128>| {
        if let Some(value) = value {
            found.push(Change { start: word.start, end: word.end, text: value.to_string() });
        }
    };
    other(number.checked_add(1));
    other(number.checked_sub(1));
}

/// Exchanges the two branches of a `cond`, and puts each in place of the other.
fn branches(text: &str, words: &[Word], at: usize, found: &mut Vec<Change>) -> Option<()> {
    let test = argument(text, words, at)?;
    let first = argument(text, words, test.1)?;
    let second = argument(text, words, first.1)?;
    let (yes, no) = (&text[first.0.start..first.0.end], &text[second.0.start..second.0.end]);
    let (start, end) = (first.0.start, second.0.end);
    for (a, b) in [(no, yes), (yes, yes), (no, no)] {
        found.push(Change { start, end, text: format!("{a} {b}") });
    }
    Some(())
}

/// The argument that begins at a word, and the word after it. An argument is a word or the contents of a pair of brackets, with any fields taken from it.
fn argument(text: &str, words: &[Word], at: usize) -> Option<(Word, usize)> {
    let name = |i: usize| words.get(i).map(|w| &text[w.start..w.end]);
    let mut end = at;
    let mut depth = 0;
    loop {
        match name(end)? {
            "(" => depth += 1,
            ")" if depth == 0 => return None,
            ")" => depth -= 1,
            _ => {}
        }
        end += 1;
        if depth == 0 {
            break;
        }
    }
    while name(end).is_some_and(|n| n.starts_with('.')) {
        end += 1;
    }
    Some((Word { start: words[at].start, end: words[end - 1].end }, end))
}
