//! Random texts of trees: those of the grammar, within its limits or beyond them, and damaged ones.

use crate::random::Random;

/// The bytes that a text of the grammar may contain, and one that it may not.
pub const ALPHABET: [u8; 15] = *b"()# 0123456789x";

fn number(random: &mut Random, text: &mut Vec<u8>, largest: usize) {
    text.extend(random.between(1, largest).to_string().bytes());
}

/// A thread count: usually small, sometimes far too large.
fn count(random: &mut Random, text: &mut Vec<u8>) {
    match random.below(60) {
        0 => text.extend((0..random.between(1, 300)).map(|_| b'1' + random.below(9) as u8)),
        1 => number(random, text, 300),
        _ => number(random, text, 9),
    }
}

fn threshold(random: &mut Random, text: &mut Vec<u8>) {
    match random.below(400) {
        0..=30 => number(random, text, 65_535),
        31 => number(random, text, 99_999),
        _ => number(random, text, 40),
    }
}

/// The most domains that a list may have, by the level of its domains.
type Widths = [usize; 8];

fn tree(random: &mut Random, text: &mut Vec<u8>, widths: &Widths, level: usize) {
    text.push(b'(');
    if widths[level] == 0 || random.one_in(3) && level > 1 {
        text.push(b'#');
        count(random, text);
    } else {
        for domain in 0..random.between(1, widths[level]) {
            if domain > 0 {
                text.push(b' ');
            }
            threshold(random, text);
            tree(random, text, widths, level + 1);
        }
    }
    text.push(b')');
}

/// A text, usually of the grammar: wide or deep, sometimes one level too deep.
pub fn random_text(random: &mut Random) -> Vec<u8> {
    let deepest = match random.below(10) {
        0 => 7,
        1..=3 => 6,
        _ => random.between(1, 5),
    };
    let mut widths = [0; 8];
    for level in 1..deepest {
        widths[level] = random.pick(&[1, 1, 2, 3, 5]);
    }
    if random.one_in(4) && deepest > 1 {
        widths[1] = random.between(40, 90);
        widths[2] = widths[2].min(1);
    }
    let mut text = Vec::new();
    tree(random, &mut text, &widths, 1);
    text
}
