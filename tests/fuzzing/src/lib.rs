//! The step table's file call and journal check, and the reference's text reader, with the library's C signatures, for the fuzzer.

use std::slice;

/// # Safety
/// The pointers are valid for their lengths.
#[no_mangle]
pub unsafe extern "C" fn reference_run_file(file: *const u8, file_length: usize, output: *mut u8, output_length: usize, place: *mut u32, length: *mut u32) -> u32 {
    let file = if file_length == 0 { &[] } else { slice::from_raw_parts(file, file_length) };
    let output = if output_length == 0 { &mut [] } else { slice::from_raw_parts_mut(output, output_length) };
    let answer = reference::lock_file::run_file(file, output);
    *place = answer.place;
    *length = answer.length;
    answer.number
}

/// # Safety
/// The pointer is valid for its length.
#[no_mangle]
pub unsafe extern "C" fn reference_read_text(text: *const u8, text_length: usize) -> reference::text_tree::TextAnswer {
    let text = if text_length == 0 { &[] } else { slice::from_raw_parts(text, text_length) };
    reference::text_tree::read_text(text)
}

/// # Safety
/// The pointer is valid for its length.
#[no_mangle]
pub unsafe extern "C" fn reference_check_journal(tree: reference::words::TreeWords, journal: *const u8, journal_length: usize) -> reference::journal::JournalAnswer {
    let journal = if journal_length == 0 { &[] } else { slice::from_raw_parts(journal, journal_length) };
    reference::journal::check_journal(&tree, journal)
}
