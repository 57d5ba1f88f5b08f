//! The entry points of the static library. Only this module declares them, and only the comparisons check the declarations.

use crate::bounds::{Allowances, Rounds, WaitBounds};
use crate::calls::Calls;
use crate::chain::ChainCall;
use crate::file_writer::WriteFile;
use crate::journal::CheckJournal;
use crate::lock_file::{FileAnswer, ReadFile};
use crate::many::RunMany;
use crate::rate::RateCall;
use crate::text_tree::TextAnswer;
use crate::waits::{RunWaits, RunWaitsOn};

/// The signature of the file call, for the step table and the library.
pub type RunFile = fn(&[u8], &mut [u8]) -> FileAnswer;

#[cfg(library)]
mod entries {
    use super::FileAnswer;

    extern "C" {
        fn hmcs_run_file(file: *const u8, file_len: usize, output: *mut u8, output_len: usize, place: *mut u32, length: *mut u32) -> u32;
    }

    /// Place and length hold other words before the call, so a missing write is noticed.
    pub fn run_file(file: &[u8], output: &mut [u8]) -> FileAnswer {
        let (mut place, mut length) = (0x5A5A_5A5A, 0xA5A5_A5A5);
        // The pointers are valid for their lengths, and nothing else uses what they point to during the call.
        let number = unsafe { hmcs_run_file(file.as_ptr(), file.len(), output.as_mut_ptr(), output.len(), &mut place, &mut length) };
        FileAnswer { number, place, length }
    }
}

/// The library's file call, if the program was built with the library.
#[cfg(library)]
pub fn run_file() -> Option<RunFile> {
    Some(entries::run_file)
}

#[cfg(not(library))]
pub fn run_file() -> Option<RunFile> {
    None
}

/// The calls on a caller's tree and state, built only if HMCS_CALLS says that the library has them.
#[cfg(calls)]
mod call_entries;

/// The library's calls on a caller's tree and state, if the program was built with them.
#[cfg(calls)]
pub fn calls() -> Option<Calls> {
    use call_entries::*;
    Some(Calls { fresh, fresh_in_place, step, step_in_place, run, run_kinds, check_state, check_steps })
}

#[cfg(not(calls))]
pub fn calls() -> Option<Calls> {
    None
}

/// The rate, built if the calls on a caller's tree are.
#[cfg(calls)]
mod rate_entry {
    use crate::rate::{PassingTimes, RateReply};

    extern "C" {
        fn hmcs_rate(h1: u16, h2: u16, times: PassingTimes) -> RateReply;
    }

    pub fn rate(h1: u16, h2: u16, times: PassingTimes) -> RateReply {
        unsafe { hmcs_rate(h1, h2, times) }
    }
}

/// The library's rate, if the program was built with the calls.
#[cfg(calls)]
pub fn rate() -> Option<RateCall> {
    Some(rate_entry::rate)
}

#[cfg(not(calls))]
pub fn rate() -> Option<RateCall> {
    None
}

/// The signature of the text reader, for the reference and the library.
pub type ReadText = fn(&[u8]) -> TextAnswer;

#[cfg(library)]
mod text_entry {
    use super::TextAnswer;

    extern "C" {
        fn hmcs_read_text(text: *const u8, text_len: usize) -> TextAnswer;
    }

    pub fn read_text(text: &[u8]) -> TextAnswer {
        // The pointer is valid for its length.
        unsafe { hmcs_read_text(text.as_ptr(), text.len()) }
    }
}

/// The library's text reader, if the program was built with the library.
#[cfg(library)]
pub fn read_text() -> Option<ReadText> {
    Some(text_entry::read_text)
}

#[cfg(not(library))]
pub fn read_text() -> Option<ReadText> {
    None
}

/// Many schedules in one call, built if the calls on a caller's tree are.
#[cfg(calls)]
mod many_entry {
    use crate::words::TreeWords;

    #[repr(C)]
    struct Answer {
        number: u32,
        place: u32,
        rows: usize,
    }

    extern "C" {
        fn hmcs_run_many(tree: TreeWords, lengths: *const u32, lengths_len: usize, entries: *const u16, entries_len: usize, rows: *mut u32, rows_len: usize) -> Answer;
    }

    pub fn run_many(tree: &TreeWords, lengths: &[u32], entries: &[u16], rows: &mut [u32]) -> (u32, u32, usize) {
        // The pointers are valid for their lengths, and nothing else uses what they point to during the call.
        let answer = unsafe { hmcs_run_many(*tree, lengths.as_ptr(), lengths.len(), entries.as_ptr(), entries.len(), rows.as_mut_ptr(), rows.len()) };
        (answer.number, answer.place, answer.rows)
    }
}

/// The library's call for many schedules, if the program was built with the calls.
#[cfg(calls)]
pub fn run_many() -> Option<RunMany> {
    Some(many_entry::run_many)
}

#[cfg(not(calls))]
pub fn run_many() -> Option<RunMany> {
    None
}

/// The chain of a thread, built if the calls on a caller's tree are.
#[cfg(calls)]
mod chain_entry {
    use crate::chain::ChainAnswer;
    use crate::words::{StateWords, TreeWords};

    extern "C" {
        fn hmcs_chain(tree: TreeWords, state: StateWords, thread: u16, chain: *mut u16, chain_len: usize, place: *mut u32, length: *mut u32) -> u32;
    }

    /// Place and length hold other words before the call, so a missing write is noticed.
    pub fn chain(tree: &TreeWords, state: &StateWords, thread: u16, buffer: &mut [u16]) -> ChainAnswer {
        let (mut place, mut length) = (0x5A5A_5A5A, 0xA5A5_A5A5);
        // The pointers are valid for their lengths, and nothing else uses what they point to during the call.
        let number = unsafe { hmcs_chain(*tree, *state, thread, buffer.as_mut_ptr(), buffer.len(), &mut place, &mut length) };
        (number, place, length)
    }
}

/// The library's chain, if the program was built with the calls.
#[cfg(calls)]
pub fn chain() -> Option<ChainCall> {
    Some(chain_entry::chain)
}

#[cfg(not(calls))]
pub fn chain() -> Option<ChainCall> {
    None
}

/// Writing a lock file, built if the calls on a caller's tree are.
#[cfg(calls)]
mod write_entry {
    use crate::lock_file::FileAnswer;
    use crate::words::TreeWords;

    extern "C" {
        fn hmcs_write_file(tree: TreeWords, schedule: *const u16, schedule_len: usize, file: *mut u8, file_len: usize, place: *mut u32, length: *mut u32) -> u32;
    }

    /// Place and length hold other words before the call, so a missing write is noticed.
    pub fn write_file(tree: &TreeWords, schedule: &[u16], file: &mut [u8]) -> FileAnswer {
        let (mut place, mut length) = (0x5A5A_5A5A, 0xA5A5_A5A5);
        // The pointers are valid for their lengths, and nothing else uses what they point to during the call.
        let number = unsafe { hmcs_write_file(*tree, schedule.as_ptr(), schedule.len(), file.as_mut_ptr(), file.len(), &mut place, &mut length) };
        FileAnswer { number, place, length }
    }
}

/// The library's lock file writer, if the program was built with the calls.
#[cfg(calls)]
pub fn write_file() -> Option<WriteFile> {
    Some(write_entry::write_file)
}

#[cfg(not(calls))]
pub fn write_file() -> Option<WriteFile> {
    None
}

/// The check of a journal, built if the calls on a caller's tree are.
#[cfg(calls)]
mod journal_entry {
    use crate::journal::JournalAnswer;
    use crate::words::TreeWords;

    extern "C" {
        fn hmcs_check_journal(tree: TreeWords, journal: *const u8, journal_len: usize) -> JournalAnswer;
    }

    pub fn check_journal(tree: &TreeWords, journal: &[u8]) -> JournalAnswer {
        // The pointer is valid for its length.
        unsafe { hmcs_check_journal(*tree, journal.as_ptr(), journal.len()) }
    }
}

/// The library's check of a journal, if the program was built with the calls.
#[cfg(calls)]
pub fn check_journal() -> Option<CheckJournal> {
    Some(journal_entry::check_journal)
}

#[cfg(not(calls))]
pub fn check_journal() -> Option<CheckJournal> {
    None
}

/// A run with waits, and a continued one, built if the calls on a caller's tree are.
#[cfg(calls)]
mod waits_entry {
    use crate::waits::{UnderWay, WaitsReply};
    use crate::words::*;

    extern "C" {
        fn hmcs_run_waits(tree: TreeWords, state: StateWords, schedule: *const u16, schedule_len: usize, trace: *mut u16, trace_len: usize, rows: *mut u64, rows_len: usize) -> WaitsReply;
        fn hmcs_run_waits_on(
            tree: TreeWords,
            state: StateWords,
            schedule: *const u16,
            schedule_len: usize,
            trace: *mut u16,
            trace_len: usize,
            rows: *mut u64,
            rows_len: usize,
            under_way: *mut u64,
        ) -> WaitsReply;
    }

    pub fn run_waits(tree: &TreeWords, state: &StateWords, schedule: &[u16], trace: &mut [u16], rows: &mut [u64]) -> WaitsReply {
        // The pointers are valid for their lengths, and nothing else uses what they point to during the call.
        unsafe { hmcs_run_waits(*tree, *state, schedule.as_ptr(), schedule.len(), trace.as_mut_ptr(), trace.len(), rows.as_mut_ptr(), rows.len()) }
    }

    pub fn run_waits_on(tree: &TreeWords, state: &StateWords, schedule: &[u16], trace: &mut [u16], rows: &mut [u64], under_way: &mut UnderWay) -> WaitsReply {
        // The pointers are valid for their lengths, and nothing else uses what they point to during the call.
        unsafe { hmcs_run_waits_on(*tree, *state, schedule.as_ptr(), schedule.len(), trace.as_mut_ptr(), trace.len(), rows.as_mut_ptr(), rows.len(), under_way.as_mut_ptr()) }
    }
}

/// The library's run with waits, if the program was built with the calls.
#[cfg(calls)]
pub fn run_waits() -> Option<RunWaits> {
    Some(waits_entry::run_waits)
}

#[cfg(not(calls))]
pub fn run_waits() -> Option<RunWaits> {
    None
}

/// The library's continued run with waits, if the program was built with the calls.
#[cfg(calls)]
pub fn run_waits_on() -> Option<RunWaitsOn> {
    Some(waits_entry::run_waits_on)
}

#[cfg(not(calls))]
pub fn run_waits_on() -> Option<RunWaitsOn> {
    None
}

/// Reading a lock file without running it, built if the calls on a caller's tree are.
#[cfg(calls)]
mod read_entry {
    use crate::lock_file::ReadReply;

    extern "C" {
        fn hmcs_read_file(file: *const u8, file_len: usize, schedule: *mut u16, schedule_len: usize) -> ReadReply;
    }

    pub fn read_file(file: &[u8], schedule: &mut [u16]) -> ReadReply {
        // The pointers are valid for their lengths, and nothing else uses what they point to during the call.
        unsafe { hmcs_read_file(file.as_ptr(), file.len(), schedule.as_mut_ptr(), schedule.len()) }
    }
}

/// The library's lock file reader, if the program was built with the calls.
#[cfg(calls)]
pub fn read_file() -> Option<ReadFile> {
    Some(read_entry::read_file)
}

#[cfg(not(calls))]
pub fn read_file() -> Option<ReadFile> {
    None
}

/// The allowances of a tree and the rounds within which every thread enters, built if the calls on a caller's tree are.
#[cfg(calls)]
mod bounds_entry {
    use crate::bounds::RoundsReply;
    use crate::table::{DOMAIN_ROOM, THREAD_ROOM};
    use crate::words::TreeWords;

    #[repr(C)]
    struct Answer {
        number: u32,
        place: u32,
    }

    extern "C" {
        fn hmcs_allowances(tree: TreeWords, allowances: *mut u64) -> Answer;
        fn hmcs_wait_bounds(tree: TreeWords, bounds: *mut u64) -> Answer;
        fn hmcs_rounds(tree: TreeWords) -> RoundsReply;
    }

    pub fn wait_bounds(tree: &TreeWords, buffer: &mut [u64; THREAD_ROOM]) -> (u32, u32) {
        // The buffer has a slot for every thread, and nothing else uses it during the call.
        let answer = unsafe { hmcs_wait_bounds(*tree, buffer.as_mut_ptr()) };
        (answer.number, answer.place)
    }

    pub fn allowances(tree: &TreeWords, buffer: &mut [u64; DOMAIN_ROOM]) -> (u32, u32) {
        // The buffer has a slot for every domain, and nothing else uses it during the call.
        let answer = unsafe { hmcs_allowances(*tree, buffer.as_mut_ptr()) };
        (answer.number, answer.place)
    }

    pub fn rounds(tree: &TreeWords) -> RoundsReply {
        unsafe { hmcs_rounds(*tree) }
    }
}

/// The library's call for allowances, if the program was built with the calls.
#[cfg(calls)]
pub fn allowances() -> Option<Allowances> {
    Some(bounds_entry::allowances)
}

#[cfg(not(calls))]
pub fn allowances() -> Option<Allowances> {
    None
}

/// The library's call for rounds, if the program was built with the calls.
#[cfg(calls)]
pub fn rounds() -> Option<Rounds> {
    Some(bounds_entry::rounds)
}

#[cfg(not(calls))]
pub fn rounds() -> Option<Rounds> {
    None
}

/// The library's call for longest waits, if the program was built with the calls.
#[cfg(calls)]
pub fn wait_bounds() -> Option<WaitBounds> {
    Some(bounds_entry::wait_bounds)
}

#[cfg(not(calls))]
pub fn wait_bounds() -> Option<WaitBounds> {
    None
}
