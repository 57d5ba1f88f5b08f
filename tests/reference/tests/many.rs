//! Cases of many schedules in one call: rows in order, refusals of the whole call and of one row, and buffers.

use reference::many::run_many;
use reference::words::TreeWords;

/// Two threads in the root.
fn tree() -> TreeWords {
    TreeWords { domains: 1, threads: 2, parents: [0; 64], thresholds: [0; 64], homes: [0; 256], ticket_root: 0 }
}

#[test]
fn each_from_its_own_fresh_lock() {
    let mut rows = [7; 27];
    assert_eq!(run_many(&tree(), &[2, 0, 2], &[0, 0, 0, 0], &mut rows), (0, 0, 3));
    let enters = [0, 0, 2, 1, 0, 1, 0, 0];
    assert_eq!(rows[..8], enters);
    assert_eq!(rows[8..16], [0; 8]);
    assert_eq!(rows[16..24], enters);
    assert_eq!(rows[24..], [7; 3]);
}

#[test]
fn a_refused_row_has_its_own_place_and_the_others_run() {
    let mut rows = [7; 24];
    let entries = [&[0, 0, 2][..], &vec![0; 65_537], &[1]].concat();
    assert_eq!(run_many(&tree(), &[3, 65_537, 1], &entries, &mut rows), (0, 0, 3));
    assert_eq!(rows[..8], [12, 2, 0, 0, 0, 0, 0, 0]);
    assert_eq!(rows[8..16], [11, 0, 0, 0, 0, 0, 0, 0]);
    assert_eq!(rows[16..], [0, 0, 1, 0, 0, 0, 0, 0]);
}

#[test]
fn lengths_that_do_not_add_up() {
    let mut rows = [7; 32];
    for (lengths, entries) in [(&[1, 1][..], &[0][..]), (&[1], &[0, 0]), (&[], &[0]), (&[u32::MAX, 1], &[]), (&[u32::MAX, u32::MAX, 2], &[])] {
        assert_eq!(run_many(&tree(), lengths, entries, &mut rows), (22, 0, 0));
        assert_eq!(run_many(&tree(), lengths, entries, &mut []), (22, 0, 0));
    }
    assert_eq!(rows, [7; 32]);
}

#[test]
fn one_row_short() {
    let mut rows = [7; 15];
    assert_eq!(run_many(&tree(), &[1, 0], &[0], &mut rows), (23, 0, 0));
    assert_eq!(rows, [7; 15]);
    assert_eq!(run_many(&TreeWords { threads: 0, ..tree() }, &[1, 0], &[], &mut rows), (5, 0, 0));
}

#[test]
fn no_schedules() {
    let mut rows = [7; 8];
    assert_eq!(run_many(&tree(), &[], &[], &mut rows), (0, 0, 0));
    assert_eq!(run_many(&tree(), &[], &[], &mut []), (0, 0, 0));
    assert_eq!(rows, [7; 8]);
}
