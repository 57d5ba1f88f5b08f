//! Compares the library's file call with the step table's on random lock files. Without the library it only counts what the files cover.
//! Each file is also read without running it, into a buffer a little shorter or longer than its schedule. The library does this if the program was built with the calls.
//! Each accepted file is read, written again and read again. The result must be the same and never longer. The library writes it if the program was built with the calls.

use reference::file_writer::{self, wrong_when_written_again};
use reference::library::{self, RunFile};
use reference::lock_file::{self, FileAnswer, ReadFile, ReadReply, TICKET_ROOT_BIT};
use reference::met::Met;
use reference::options::{conclude, Options};
use reference::random::Random;
use reference::random_file::random_file;
use reference::shrink::{hexadecimal, shrink};
use std::process::exit;

const CANARY: usize = 64;
const REFUSALS: [usize; 12] = [1, 2, 3, 4, 5, 6, 7, 8, 9, 16, 12, 14];

/// The length of the output buffer: a fixed length, or the difference from the listing's length.
#[derive(Clone, Copy, Debug)]
enum Room {
    Length(usize),
    More(usize),
    Less(usize),
}

impl Room {
    fn random(random: &mut Random) -> Room {
        match random.below(40) {
            0 => Room::Length(65_536),
            1 => Room::Length(0),
            2..=5 => Room::Length(random.below(40)),
            6..=9 => Room::Less(1),
            10 => Room::Less(random.between(2, 20)),
            11..=20 => Room::More(0),
            _ => Room::More(random.below(100)),
        }
    }

    fn length(self, listing: usize) -> usize {
        match self {
            Room::Length(length) => length,
            Room::More(more) => listing + more,
            Room::Less(less) => listing.saturating_sub(less),
        }
    }
}

/// What a call returned, and its output buffer with the canaries on both sides.
#[derive(PartialEq, Eq)]
struct Result {
    answer: FileAnswer,
    buffer: Vec<u8>,
}

fn result(run_file: RunFile, file: &[u8], mut buffer: Vec<u8>) -> Result {
    let end = buffer.len() - CANARY;
    let answer = run_file(file, &mut buffer[CANARY..end]);
    Result { answer, buffer }
}

/// The step table's result and the library's, on buffers with the same random contents.
fn results(library: RunFile, file: &[u8], room: Room, seed: u64) -> (Result, Result) {
    let listing = lock_file::list_file(file).map_or(0, |listing| listing.len());
    let buffer = Random::new(seed).bytes(CANARY + room.length(listing) + CANARY);
    (result(lock_file::run_file, file, buffer.clone()), result(library, file, buffer))
}

/// What reading without running returns, and the schedule buffer with the slots after it.
fn read_into(read_file: ReadFile, file: &[u8], room: usize) -> (ReadReply, Vec<u16>) {
    let mut buffer = vec![0x5A5A; room + CANARY];
    let reply = read_file(file, &mut buffer[..room]);
    (reply, buffer)
}

fn main() {
    let options = Options::read(500_000, 5_000_000);
    let library = library::run_file();
    let subject = if library.is_some() { "the library's file call against the step table" } else { "no library named, files only counted" };
    println!("{subject}: {} files, seed {}", options.count, options.seed);
    let writer = library::write_file().unwrap_or(file_writer::write_file);
    let reader = library::read_file().unwrap_or(lock_file::read_file);
    let mut random = Random::new(options.seed);
    let mut met = Met::new(&REFUSALS);
    let (mut totals, mut roots) = ([0; 6], [0_u64; 2]);
    for number in 0..options.count {
        let (file, room, seed) = (random_file(&mut random), Room::random(&mut random), random.word());
        let (table, other) = results(library.unwrap_or(lock_file::run_file), &file, room, seed);
        if table != other {
            println!("file {number} differs");
            report(library.unwrap_or(lock_file::run_file), &file, room, seed);
            exit(1);
        }
        let length = lock_file::read_file(&file, &mut []).length as usize;
        let read_room = random.pick(&[0, length.saturating_sub(1), length, length + 1]);
        if read_into(reader, &file, read_room) != read_into(lock_file::read_file, &file, read_room) {
            println!("file {number}, read with room for {read_room} entries, differs: {}", hexadecimal(&file));
            exit(1);
        }
        met.count(table.answer.number);
        add_counts(&mut totals, &table);
        if table.answer.number == 0 {
            roots[usize::from(file[0] >= TICKET_ROOT_BIT)] += 1;
        }
        if let (0 | 14, Some(wrong)) = (table.answer.number, wrong_when_written_again(writer, &file)) {
            println!("file {number}, written again, {wrong}: {}", hexadecimal(&file));
            exit(1);
        }
    }
    met.print();
    println!("accepted with a queue root: {}, with a ticket root: {}", roots[0], roots[1]);
    let [steps, entries, stays, root, passed, crossed] = totals;
    println!("in the accepted files: {steps} steps, {entries} entries, {stays} stays, {root} root, {passed} passed and {crossed} crossed entries");
    conclude(met.complete() && !roots.contains(&0), library.is_some(), &["HMCS_LIBRARY"]);
}

/// Adds the six numbers of the listing's first line.
fn add_counts(totals: &mut [u64; 6], result: &Result) {
    let listing = &result.buffer[CANARY..CANARY + result.answer.length as usize];
    let line = String::from_utf8_lossy(listing.split(|&byte| byte == b'\n').next().unwrap_or(&[])).into_owned();
    for (total, number) in totals.iter_mut().zip(line.split(' ').skip(1)) {
        *total += number.parse::<u64>().expect("a number of the listing");
    }
}

fn report(library: RunFile, file: &[u8], room: Room, seed: u64) {
    let differs = |file: &[u8]| {
        let (table, other) = results(library, file, room, seed);
        table != other
    };
    let smallest = shrink(file, differs);
    let (table, other) = results(library, &smallest, room, seed);
    println!("smallest file, {} bytes: {}", smallest.len(), hexadecimal(&smallest));
    println!("output buffer of {} bytes, contents from seed {seed}", table.buffer.len() - 2 * CANARY);
    println!("step table: {:?}", table.answer);
    println!("library:    {:?}", other.answer);
    if let Some(byte) = (0..table.buffer.len()).find(|&byte| table.buffer[byte] != other.buffer[byte]) {
        println!("first output byte that differs: {}, {} and {}", byte as i64 - CANARY as i64, table.buffer[byte], other.buffer[byte]);
    }
}
