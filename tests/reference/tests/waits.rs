//! Cases of waits, with rows computed by hand: both kinds of root, attempts only partly within the run, means that reduce, refusals.

use reference::table::State;
use reference::waits::{run_waits, run_waits_on};
use reference::words::{StateWords, TreeWords};

/// One domain with two threads.
fn two_in_root(ticket_root: u32) -> TreeWords {
    TreeWords { domains: 1, threads: 2, parents: [0; 64], thresholds: [0; 64], homes: [0; 256], ticket_root }
}

fn rows_of(ticket_root: u32, before: &[u16], schedule: &[u16]) -> Vec<u64> {
    let tree = two_in_root(ticket_root);
    let fresh = StateWords::of(&State::fresh());
    let mut rows = vec![7; 17];
    let state = run_waits(&tree, &fresh, before, &mut vec![0; before.len()], &mut rows.clone()).state;
    assert_eq!(run_waits(&tree, &state, schedule, &mut vec![0; schedule.len()], &mut rows).number, 0);
    assert_eq!(rows[15..], [7, 7]);
    rows.truncate(15);
    rows
}

#[test]
fn threads_that_take_turns() {
    let schedule: Vec<u16> =
        [(1, 2), (0, 3), (1, 6), (0, 7), (1, 7), (0, 7), (1, 4), (0, 4), (1, 2)].iter().flat_map(|&(thread, times)| vec![thread; times]).collect();
    assert_eq!(rows_of(0, &[], &schedule), [3, 2, 1, 2, 3, 4, 2, 1, 1, 2, 7, 4, 1, 4, 7]);
}

#[test]
fn attempts_that_begin_before_or_end_after() {
    assert_eq!(rows_of(0, &[0, 0, 1, 1, 1], &[0, 0, 0, 1]), [0; 15]);
    assert_eq!(rows_of(0, &[], &[0, 0, 1, 1, 1, 0]), [1, 0, 0, 0, 1, 0, 0, 0, 0, 0, 1, 0, 0, 0, 1]);
}

#[test]
fn an_entry_before_the_swap_does_not_count() {
    assert_eq!(rows_of(0, &[], &[1, 0, 0, 1, 1, 0, 0, 0, 1]), [1, 0, 0, 0, 1, 1, 0, 0, 0, 1, 2, 0, 0, 0, 1]);
}

#[test]
fn a_draw_begins_at_a_ticket_root() {
    assert_eq!(rows_of(1, &[], &[0, 1, 0, 0, 0, 1, 1, 1, 0]), [2, 1, 1, 1, 2, 1, 0, 0, 0, 1, 3, 1, 1, 1, 3]);
}

#[test]
fn refusals_leave_everything() {
    let fresh = StateWords::of(&State::fresh());
    for (schedule, room, row_room, number) in [(&[0, 0][..], 2, 14, 18), (&[], 0, 0, 18), (&[0, 0], 1, 0, 13), (&[2], 0, 14, 12)] {
        let (mut trace, mut rows) = (vec![9; room], vec![7; row_room]);
        let reply = run_waits(&two_in_root(0), &fresh, schedule, &mut trace, &mut rows);
        assert_eq!((reply.number, reply.place, reply.steps, reply.entries, reply.rows), (number, 0, 0, 0, 0));
        assert!(reply.state == fresh && trace == vec![9; room] && rows == vec![7; row_room]);
    }
}

/// The rows of a run from the state that another run leads to, with the numbers of its attempts under way. Also the numbers after the run.
fn goes_on(ticket_root: u32, before: &[u16], schedule: &[u16], numbers: [u64; 2]) -> (Vec<u64>, [u64; 2]) {
    let tree = two_in_root(ticket_root);
    let fresh = StateWords::of(&State::fresh());
    let (mut rows, mut under_way) = (vec![7; 15], [0; 256]);
    let state = run_waits(&tree, &fresh, before, &mut vec![0; before.len()], &mut rows).state;
    under_way[..2].copy_from_slice(&numbers);
    let reply = run_waits_on(&tree, &state, schedule, &mut vec![0; schedule.len()], &mut rows, &mut under_way);
    assert_eq!((reply.number, reply.rows), (0, 3));
    assert!(under_way[2..].iter().all(|&number| number == 0));
    (rows, [under_way[0], under_way[1]])
}

#[test]
fn attempts_under_way() {
    let none = [0; 5];
    let waited = |wait: u64| [1, wait, wait, wait, 1];
    // thread 1 has waited since before the run: it finishes, it continues, and with 0 its wait is unknown
    assert_eq!(goes_on(0, &[0, 0, 1, 1, 1], &[0, 0, 0, 1], [0, 8]), ([none, waited(7), waited(7)].concat(), [0, 0]));
    assert_eq!(goes_on(0, &[0, 0, 1, 1, 1], &[0], [0, 8]), ([none; 3].concat(), [0, 8]));
    assert_eq!(goes_on(0, &[0, 0, 1, 1, 1], &[0, 0, 0, 1], [0, 0]), ([none; 3].concat(), [0, 0]));
    // attempts that begin within the run, without and with an entry of another thread since
    assert_eq!(goes_on(1, &[], &[0, 1, 0, 0, 0], [0, 0]).1, [1, 1]);
    assert_eq!(goes_on(1, &[], &[0, 1, 0, 0, 0, 1], [0, 0]).1, [2, 0]);
}

#[test]
fn numbers_that_cannot_be() {
    let fresh = StateWords::of(&State::fresh());
    for (thread, number, refused) in [(1, 1 << 63, 0), (1, (1 << 63) + 1, 27), (2, 1, 27), (255, 1, 27)] {
        let (mut rows, mut under_way) = (vec![7; 15], [0; 256]);
        under_way[thread] = number;
        let before = under_way;
        let reply = run_waits_on(&two_in_root(0), &fresh, &[], &mut [], &mut rows, &mut under_way);
        assert_eq!((reply.number, reply.place), (refused, if refused == 0 { 0 } else { thread as u32 }));
        assert!(under_way == before && (refused == 0 || rows == vec![7; 15]));
        let reply = run_waits_on(&two_in_root(0), &fresh, &[], &mut [], &mut rows[..14], &mut under_way);
        assert_eq!((reply.number, reply.rows), (18, 0));
    }
}
