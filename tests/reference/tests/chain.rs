//! Cases of the chain: both kinds of root, each reason for 21, the order of refusals, buffers.

use reference::chain::{acts, chain, chain_words, Broken};
use reference::table::*;
use reference::words::{StateWords, TreeWords};

/// A tree with this many threads in the root.
fn root_alone(threads: usize, ticket_root: bool) -> Tree {
    Tree { domains: 1, threads, ticket_root, ..Tree::new() }
}

/// Threads 0 and 1 in one domain below the root, thread 2 in another.
fn two_domains(ticket_root: bool) -> Tree {
    let mut tree = Tree { domains: 3, threads: 3, ticket_root, ..Tree::new() };
    tree.thresholds[1..3].fill(2);
    tree.homes[..3].copy_from_slice(&[1, 1, 2]);
    tree
}

fn after(tree: &Tree, start: u16, schedule: &[u16]) -> State {
    let mut state = State::fresh_at(tree, start);
    run(tree, &mut state, schedule.iter().copied(), &mut Vec::new());
    state
}

/// Three threads at the root, with thread 2 in Wait.
fn third_waits() -> State {
    let mut state = State::fresh();
    state.places[2] = Place::Wait(0);
    state.statuses[2] = LOCKED;
    state
}

#[test]
fn queues() {
    let two = root_alone(2, false);
    assert_eq!(chain(&two, &State::fresh(), 1), Ok(vec![1]));
    assert_eq!(chain(&two, &after(&two, 0, &[0, 0, 1, 1, 1]), 1), Ok(vec![1, 0]));
    assert_eq!(chain(&two, &after(&two, 0, &[0, 0, 1, 1, 0, 0, 0]), 0), Ok(vec![0, 1]));
    let tree = two_domains(false);
    assert_eq!(chain(&tree, &after(&tree, 0, &[2, 2, 2, 2, 0, 0, 0, 0, 0, 1, 1, 1]), 1), Ok(vec![1, 0, 2]));
    assert_eq!(chain(&tree, &after(&tree, 0, &[2, 2, 2, 2, 0, 0, 0, 0, 0, 1, 1, 1, 2]), 1), Ok(vec![1, 0, 2]));
}

#[test]
fn tickets() {
    let tree = root_alone(3, true);
    for start in [0, 65_534, 65_535] {
        assert_eq!(chain(&tree, &after(&tree, start, &[0, 1, 2]), 2), Ok(vec![2, 1, 0]));
        assert_eq!(chain(&tree, &after(&tree, start, &[0, 1, 2, 0]), 2), Ok(vec![2, 1, 0]));
        assert_eq!(chain(&tree, &after(&tree, start, &[0, 1, 2, 0, 0]), 2), Ok(vec![2, 1]));
    }
    let below = two_domains(true);
    assert_eq!(chain(&below, &after(&below, 65_535, &[2, 2, 2, 0, 0, 0, 1, 1, 1]), 1), Ok(vec![1, 0, 2]));
}

#[test]
fn acting() {
    let tree = two_domains(false);
    let acting = |place: Place, status: u64| {
        let mut state = State::fresh();
        state.places[0] = place;
        state.statuses[0] = status;
        [1, 0, 2].map(|domain| acts(&tree, &state, 0, domain))
    };
    assert_eq!(acting(Place::Idle, 0), [false, false, false]);
    assert_eq!(acting(Place::Swap(1), 0), [false, false, false]);
    assert_eq!(acting(Place::Prep(0), 0), [true, false, false]);
    assert_eq!(acting(Place::Link(1, 1), 0), [true, false, false]);
    assert_eq!(acting(Place::Wait(1), WAIT), [true, false, false]);
    assert_eq!(acting(Place::Wait(1), ACQUIRE_PARENT), [true, false, false]);
    assert_eq!(acting(Place::Wait(1), ACQUIRE_PARENT - 1), [true, true, false]);
    assert_eq!(acting(Place::Check(1), 0), [true, true, false]);
    assert_eq!(acting(Place::Grant(1, 1, 2), 0), [true, true, false]);
    assert_eq!(acting(Place::Grant(1, 1, ACQUIRE_PARENT), 0), [true, false, false]);
    assert_eq!(acting(Place::Cas(0), 0), [true, true, false]);
    assert_eq!(acting(Place::Inside, 0), [true, true, false]);
}

#[test]
fn nobody_several_and_back() {
    let three = root_alone(3, false);
    assert_eq!(chain(&three, &third_waits(), 2), Err(Broken::Nobody));
    let mut state = third_waits();
    (state.nexts[0], state.nexts[1]) = (Some(2), Some(2));
    state.places[0] = Place::Swap(0);
    assert_eq!(chain(&three, &state, 2), Err(Broken::Nobody));
    state.places[1] = Place::Inside;
    assert_eq!(chain(&three, &state, 2), Ok(vec![2, 1]));
    state.places[0] = Place::Inside;
    assert_eq!(chain(&three, &state, 2), Err(Broken::Several));
    state.nexts = [None; RECORD_ROOM];
    state.nexts[2] = Some(2);
    assert_eq!(chain(&three, &state, 2), Err(Broken::ComesBack));
}

#[test]
fn comes_back_to_another() {
    let mut state = State::fresh();
    state.places[..3].copy_from_slice(&[Place::Wait(1), Place::Wait(0), Place::Wait(0)]);
    (state.statuses[0], state.statuses[257], state.statuses[258]) = (WAIT, LOCKED, LOCKED);
    (state.nexts[1], state.nexts[257], state.nexts[258]) = (Some(0), Some(258), Some(257));
    assert_eq!(chain(&two_domains(false), &state, 0), Err(Broken::ComesBack));
    state.statuses[258] = UNLOCKED;
    assert_eq!(chain(&two_domains(false), &state, 0), Ok(vec![0, 1, 2]));
}

#[test]
fn refusals_in_their_order() {
    let tree = TreeWords { domains: 1, threads: 3, parents: [0; 64], thresholds: [0; 64], homes: [0; 256], ticket_root: 0 };
    let broken = StateWords::of(&third_waits());
    let mut bad = broken;
    bad.places.domains[2] = 1;
    let mut buffer = [7; 4];
    assert_eq!(chain_words(&TreeWords { threads: 0, ..tree }, &bad, 3, &mut buffer[..2]), (5, 0, 0));
    assert_eq!(chain_words(&tree, &bad, 3, &mut buffer[..2]), (10, 0, 0));
    assert_eq!(chain_words(&tree, &broken, 3, &mut buffer[..2]), (12, 0, 0));
    assert_eq!(chain_words(&tree, &broken, 2, &mut buffer[..2]), (20, 0, 0));
    assert_eq!(chain_words(&tree, &broken, 2, &mut buffer[..3]), (21, 0, 0));
    assert_eq!(buffer, [7; 4]);
    assert_eq!(chain_words(&tree, &broken, 1, &mut buffer), (0, 0, 1));
    assert_eq!(buffer, [1, 7, 7, 7]);
}
