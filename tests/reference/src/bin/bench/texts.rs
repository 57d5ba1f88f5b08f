//! Reading texts: nanoseconds per byte at three lengths, to show that the cost grows with the bytes and no faster.

use crate::{time, ROUNDS};
use reference::library::{self, ReadText};
use reference::opaque::opaque;
use reference::text_tree;

/// Domains below the root: the largest allowed number, and far more, which 4 refuses once everything is read.
const DOMAINS: [usize; 3] = [63, 1_000, 50_000];

/// Leaves with thresholds and counts of a few digits.
fn text(domains: usize) -> Vec<u8> {
    let leaves: Vec<String> = (0..domains).map(|domain| format!("{}(#{})", 1 + domain * 7919 % 65_535, 1 + domain % 4)).collect();
    format!("({})", leaves.join(" ")).into_bytes()
}

/// The best of the rounds, in nanoseconds.
fn cost(call: ReadText, text: &[u8]) -> f64 {
    (0..ROUNDS).map(|_| time(|| assert!(call(opaque(text)).number != 15))).fold(f64::MAX, f64::min)
}

/// Prints the table. Its ratios do not count toward the worst one.
pub fn print() {
    println!("reading a text: nanoseconds a byte, of the reference and the library");
    for domains in DOMAINS {
        let text = text(domains);
        print!("{:<14} {:>7} bytes", format!("{} domains", domains + 1), text.len());
        for call in std::iter::once(text_tree::read_text as ReadText).chain(library::read_text()) {
            print!("  {:>9.2}", cost(call, &text) / text.len() as f64);
        }
        println!();
    }
}
