//! The parts of a file of definitions that are changed, as words: the right sides of definitions and the fields of records.

/// A word, a field with the dot before it, or a single bracket, comma or semicolon: its position in the file, in bytes.
#[derive(Clone, Copy)]
pub struct Word {
    pub start: usize,
    pub end: usize,
}

/// What an unindented line begins.
#[derive(Clone, Copy, PartialEq)]
enum Item {
    LeftAlone,
    Definition,
    Record,
}

pub fn words(text: &str) -> Vec<Word> {
    let mut found = Vec::new();
    let mut item = Item::LeftAlone;
    let mut start = 0;
    for line in text.split_inclusive('\n') {
        let code = line.split("--").next().unwrap_or("").trim_end();
        if !code.is_empty() {
            let indented = code.starts_with(' ');
            if !indented {
                item = begun(code);
            }
            if let Some(from) = changed_from(item, indented, code) {
                cut(&code[from..], start + from, &mut found);
            }
        }
        start += line.len();
    }
    found
}

fn begun(code: &str) -> Item {
    let signature = match (code.find(" : "), code.find(" =")) {
        (Some(colon), Some(equals)) => colon < equals,
        (colon, None) => colon.is_some(),
        (None, Some(_)) => false,
    };
    if code.starts_with("pub record") {
        Item::Record
    } else if signature || !code.contains(" =") {
        Item::LeftAlone
    } else {
        Item::Definition
    }
}

/// The position from which a line is changed: after the equals sign of a definition or the colon of a field.
fn changed_from(item: Item, indented: bool, code: &str) -> Option<usize> {
    match item {
        Item::LeftAlone => None,
        Item::Definition if indented => Some(0),
        Item::Definition => code.find(" =").map(|at| at + 2),
        Item::Record if !indented => None,
        Item::Record if code.trim_start().starts_with("pub ") => code.find(" :").map(|at| at + 2),
        Item::Record => Some(0),
    }
}

fn cut(code: &str, start: usize, found: &mut Vec<Word>) {
    let mut begin = None;
    for (at, letter) in code.char_indices() {
        let alone = "(){};,".contains(letter);
        let field = letter == '.' && code[at + 1..].starts_with(|next: char| next.is_ascii_lowercase());
        if alone || field || letter.is_whitespace() {
            if let Some(b) = begin.take() {
                found.push(Word { start: start + b, end: start + at });
            }
            if alone {
                found.push(Word { start: start + at, end: start + at + 1 });
            }
        }
        if begin.is_none() && !alone && !letter.is_whitespace() {
            begin = Some(at);
        }
    }
    if let Some(b) = begin {
        found.push(Word { start: start + b, end: start + code.len() });
    }
}
