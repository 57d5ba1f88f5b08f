//! Shrinks a file that shows a difference while it still shows one, and writes it out.

/// Only files up to this length have a count lowered together with an entry, because every pair of positions is tried.
const SHORT: usize = 200;
/// The most bytes in an entry of a domain.
const LONGEST_ENTRY: usize = 4;

/// Removes stretches, lowers bytes, and removes entries with their count, until nothing more can be removed.
pub fn shrink(file: &[u8], differs: impl Fn(&[u8]) -> bool) -> Vec<u8> {
    let mut smallest = file.to_vec();
    while take_away(&mut smallest, &differs) | lower(&mut smallest, &differs) || take_away_counted(&mut smallest, &differs) {}
    smallest
}

fn take_away(file: &mut Vec<u8>, differs: &impl Fn(&[u8]) -> bool) -> bool {
    let mut changed = false;
    let mut stretch = file.len();
    while stretch > 0 {
        let mut start = 0;
        while start + stretch <= file.len() {
            let shorter = [&file[..start], &file[start + stretch..]].concat();
            if differs(&shorter) {
                *file = shorter;
                changed = true;
            } else {
                start += stretch;
            }
        }
        stretch /= 2;
    }
    changed
}

/// Also tries each byte modulo 128: the first byte then means a queue root with the same number of domains.
fn lower(file: &mut [u8], differs: &impl Fn(&[u8]) -> bool) -> bool {
    let mut changed = false;
    for position in 0..file.len() {
        let byte = file[position];
        let lowered = [0, byte % 128, byte / 2, byte.saturating_sub(1)].into_iter().find(|&lower| {
            file[position] = lower;
            lower < byte && differs(file)
        });
        file[position] = lowered.unwrap_or(byte);
        changed |= lowered.is_some();
    }
    changed
}

/// Lowers one byte by one and removes a stretch after it.
fn take_away_counted(file: &mut Vec<u8>, differs: &impl Fn(&[u8]) -> bool) -> bool {
    if file.len() > SHORT {
        return false;
    }
    for count in (0..file.len()).filter(|&count| file[count] > 0) {
        for start in count + 1..file.len() {
            for end in start + 1..=(start + LONGEST_ENTRY).min(file.len()) {
                let mut shorter = [&file[..start], &file[end..]].concat();
                shorter[count] -= 1;
                if differs(&shorter) {
                    *file = shorter;
                    return true;
                }
            }
        }
    }
    false
}

/// Writes a long run of one byte once, with its length.
pub fn hexadecimal(file: &[u8]) -> String {
    let mut texts = Vec::new();
    let mut rest = file;
    while let Some(&byte) = rest.first() {
        let times = rest.iter().take_while(|&&other| other == byte).count();
        texts.push(match times {
            1..=64 => vec![format!("{byte:02x}"); times].join(" "),
            _ => format!("{byte:02x} ({times} times)"),
        });
        rest = &rest[times..];
    }
    texts.join(" ")
}
