//! The calls on a caller's tree and state.

use crate::kinds::KindsReply;
use crate::named_steps::StepsReply;
use crate::words::*;

/// Only number and place.
#[repr(C)]
struct Answer {
    number: u32,
    place: u32,
}

extern "C" {
    fn hmcs_fresh(tree: TreeWords, start: u16) -> Reply;
    fn hmcs_fresh_in_place(tree: TreeWords, state: *mut StateWords, start: u16) -> Answer;
    fn hmcs_step(tree: TreeWords, state: StateWords, thread: u16) -> StepReply;
    fn hmcs_step_in_place(tree: TreeWords, state: *mut StateWords, thread: u16) -> StepAnswer;
    fn hmcs_run(tree: TreeWords, state: StateWords, schedule: *const u16, schedule_len: usize, trace: *mut u16, trace_len: usize) -> RunReply;
    fn hmcs_run_kinds(tree: TreeWords, state: StateWords, schedule: *const u16, schedule_len: usize, trace: *mut u16, trace_len: usize, rows: *mut u16, rows_len: usize) -> KindsReply;
    fn hmcs_check_state(tree: TreeWords, state: StateWords) -> Answer;
    fn hmcs_check_steps(
        tree: TreeWords,
        state: StateWords,
        threads: *const u16,
        threads_len: usize,
        kinds: *const u16,
        kinds_len: usize,
        domains: *const u16,
        domains_len: usize,
    ) -> StepsReply;
}

pub fn fresh(tree: &TreeWords, start: u16) -> Reply {
    unsafe { hmcs_fresh(*tree, start) }
}

pub fn fresh_in_place(tree: &TreeWords, state: &mut StateWords, start: u16) -> (u32, u32) {
    let answer = unsafe { hmcs_fresh_in_place(*tree, state, start) };
    (answer.number, answer.place)
}

pub fn step(tree: &TreeWords, state: &StateWords, thread: u16) -> StepReply {
    unsafe { hmcs_step(*tree, *state, thread) }
}

pub fn step_in_place(tree: &TreeWords, state: &mut StateWords, thread: u16) -> StepAnswer {
    unsafe { hmcs_step_in_place(*tree, state, thread) }
}

pub fn run(tree: &TreeWords, state: &StateWords, schedule: &[u16], trace: &mut [u16]) -> RunReply {
    unsafe { hmcs_run(*tree, *state, schedule.as_ptr(), schedule.len(), trace.as_mut_ptr(), trace.len()) }
}

pub fn run_kinds(tree: &TreeWords, state: &StateWords, schedule: &[u16], trace: &mut [u16], rows: &mut [u16]) -> KindsReply {
    // The pointers are valid for their lengths, and nothing else uses what they point to during the call.
    unsafe { hmcs_run_kinds(*tree, *state, schedule.as_ptr(), schedule.len(), trace.as_mut_ptr(), trace.len(), rows.as_mut_ptr(), rows.len()) }
}

pub fn check_steps(tree: &TreeWords, state: &StateWords, threads: &[u16], kinds: &[u16], domains: &[u16]) -> StepsReply {
    // The pointers are valid for their lengths.
    unsafe { hmcs_check_steps(*tree, *state, threads.as_ptr(), threads.len(), kinds.as_ptr(), kinds.len(), domains.as_ptr(), domains.len()) }
}

pub fn check_state(tree: &TreeWords, state: &StateWords) -> (u32, u32) {
    let answer = unsafe { hmcs_check_state(*tree, *state) };
    (answer.number, answer.place)
}
