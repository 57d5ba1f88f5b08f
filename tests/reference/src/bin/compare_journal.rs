//! Compares the library's check of a journal with the step table's, on journals of random steps, whole and damaged. Without the library it only
//! counts what the cases cover.

use reference::journal::{check_journal, write_journal, CheckJournal, JournalAnswer};
use reference::library;
use reference::met::Met;
use reference::options::{conclude, Options};
use reference::random::Random;
use reference::random_file::{broken_draft, valid_draft};
use reference::random_state::tree_words;
use reference::schedules::{schedule, STYLES};
use reference::words::TreeWords;
use std::process::exit;

/// The number of steps that the library takes at a time.
const PIECE: usize = 1_024;

struct Case {
    tree: TreeWords,
    journal: Vec<u8>,
}

/// A few steps for most journals, and about one, two or three pieces for some.
fn random_length(random: &mut Random) -> usize {
    match random.below(40) {
        0 => 0,
        1..=2 => random.pick(&[1, 2, 3]) * PIECE + random.below(5) - 2,
        3 => random.between(1, 5 * PIECE),
        _ => random.between(1, 60),
    }
}

/// Changes, inserts or removes one byte, cuts off the end, sets another bit in a bit map, names a thread that may not be in the tree, changes a kind, or adds bytes at the end.
fn damage(random: &mut Random, journal: &mut Vec<u8>, begins: &[usize]) {
    if begins.is_empty() {
        journal.extend([random.pick(&[0, 1, 2, 3, 4, 255])]);
        return;
    }
    let position = random.below(journal.len());
    let begin = random.pick(begins);
    match random.below(8) {
        0 => journal[position] = random.word() as u8,
        1 => journal.insert(position, random.word() as u8),
        2 => drop(journal.remove(position)),
        3 => journal.truncate(position),
        4 => journal[begin] ^= random.pick(&[1, 2, 4, 8, 128]),
        5 => drop(journal.splice(begin..begin, [3, random.word() as u8, random.pick(&[0, 0, 1, 255]), random.below(8) as u8])),
        6 => journal.push(random.word() as u8),
        _ => drop(journal.splice(begin..begin, [random.pick(&[0, 2]), random.below(8) as u8])),
    }
}

fn random_case(random: &mut Random) -> Case {
    if random.one_in(12) {
        let draft = broken_draft(random);
        return Case { tree: tree_words(random, &draft), journal: random.bytes(8) };
    }
    let draft = valid_draft(random);
    let tree = tree_words(random, &draft);
    let length = random_length(random);
    let style = random.pick(&STYLES);
    let steps = schedule(random, &tree.tree(), style, length);
    let written_out = random.pick(&[None, Some(1), Some(2), Some(10)]);
    let (mut journal, begins) = write_journal(&tree.tree(), &steps, random, written_out);
    if !random.one_in(3) {
        damage(random, &mut journal, &begins);
    }
    Case { tree, journal }
}

fn fail(case: &Case, table: JournalAnswer, library: JournalAnswer) -> ! {
    println!("{} domains, {} threads, {} bytes: step table {table:?}, library {library:?}", case.tree.domains, case.tree.threads, case.journal.len());
    println!("{:02x?}", &case.journal[..case.journal.len().min(200)]);
    exit(1)
}

fn compare(library: Option<CheckJournal>, case: &Case) -> JournalAnswer {
    let answer = check_journal(&case.tree, &case.journal);
    if let Some(call) = library {
        let other = call(&case.tree, &case.journal);
        if other != answer {
            fail(case, answer, other);
        }
    }
    answer
}

/// A journal of 10,000 random steps is accepted. Then each of its bytes in turn gets another value.
fn one_byte_changed(random: &mut Random, library: Option<CheckJournal>) {
    let draft = valid_draft(random);
    let tree = tree_words(random, &draft);
    let steps = schedule(random, &tree.tree(), STYLES[0], 10_000);
    let (journal, _) = write_journal(&tree.tree(), &steps, random, None);
    let mut case = Case { tree, journal };
    if compare(library, &case).number != 0 {
        println!("a journal of real steps is refused");
        exit(1);
    }
    for position in 0..case.journal.len() {
        let byte = case.journal[position];
        case.journal[position] ^= random.between(1, 255) as u8;
        compare(library, &case);
        case.journal[position] = byte;
    }
    println!("10,000 steps in {} bytes, accepted, and with each byte changed", case.journal.len());
}

fn main() {
    let options = Options::read(300_000, 3_000_000);
    let library = library::check_journal();
    let subject = if library.is_some() {
        "the library's check of a journal against the step table"
    } else {
        "no library with this call named, cases only counted"
    };
    println!("{subject}: {} cases, seed {}", options.count, options.seed);
    let mut random = Random::new(options.seed);
    let mut met = Met::new(&[4, 5, 6, 7, 8, 9, 16, 25, 12, 26]);
    let mut met_later = Met::new(&[25, 12, 26]);
    for _ in 0..options.count {
        let case = random_case(&mut random);
        let answer = compare(library, &case);
        met.count(answer.number);
        // An entry has at most four bytes, so these places are after the first piece.
        if case.journal.len() > 4 * PIECE && (answer.number == 0 || answer.place > 4 * PIECE) {
            met_later.count(answer.number);
        }
    }
    met.print();
    print!("after the first {} bytes, ", 4 * PIECE);
    met_later.print();
    one_byte_changed(&mut random, library);
    conclude(met.complete() && met_later.complete(), library.is_some(), &["HMCS_LIBRARY", "HMCS_CALLS"]);
}
