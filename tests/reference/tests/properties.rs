//! What document 01 says about single steps, on random states that a caller may pass.

use reference::counters::first_past;
use reference::random::Random;
use reference::random_file::valid_draft;
use reference::random_state::{random_state, tree_words};
use reference::refusals::{well_formed, words_well_formed};
use reference::table::*;
use reference::words::*;

/// Checks random trees, each with a random well-formed state and a thread.
fn each(check: impl Fn(&Tree, &State, usize)) {
    let mut random = Random::new(1);
    for _ in 0..5000 {
        let draft = valid_draft(&mut random);
        let tree = tree_words(&mut random, &draft).tree();
        let state = random_state(&mut random, &tree).state().expect("a well-formed state");
        for _ in 0..4 {
            check(&tree, &state, random.below(tree.threads));
        }
    }
}

#[test]
fn steps_keep_a_state_well_formed() {
    each(|tree, state, thread| {
        let mut after = state.clone();
        step(tree, &mut after, thread);
        let past = first_past(tree, state, &[thread as u16]).is_some();
        assert!(well_formed(tree, state) && words_well_formed(tree, &after));
        assert_eq!(well_formed(tree, &after), !past);
    });
}

#[test]
fn a_stay_is_a_step_that_changes_nothing() {
    each(|tree, state, thread| {
        let mut after = state.clone();
        let kind = step(tree, &mut after, thread);
        assert_eq!(kind == Kind::Stay, after == *state);
    });
}

#[test]
fn an_entry_is_a_step_that_arrives_inside() {
    each(|tree, state, thread| {
        let mut after = state.clone();
        let kind = step(tree, &mut after, thread);
        assert_eq!(kind.is_entry(), after.places[thread] == Place::Inside && state.places[thread] != Place::Inside);
        let draws = state.places[thread] == Place::Idle || state.places[thread] == Place::Draw;
        let at_the_root = matches!(state.places[thread], Place::Swap(0) | Place::Wait(0) | Place::Watch) || draws;
        assert_eq!(kind == Kind::RootEntry, kind.is_entry() && at_the_root);
    });
}

#[test]
fn only_a_draw_changes_the_ticket_and_only_a_raise_the_grant() {
    each(|tree, state, thread| {
        let mut after = state.clone();
        step(tree, &mut after, thread);
        let place = state.places[thread];
        let draws = place == Place::Draw || place == Place::Idle && tree.ticket_root && tree.home(thread) == ROOT;
        assert_eq!(after.ticket, if draws { state.ticket.wrapping_add(1) } else { state.ticket });
        assert_eq!(after.grant, if place == Place::Raise { state.grant.wrapping_add(1) } else { state.grant });
        assert!(!tree.ticket_root || after.tails[ROOT].is_none());
    });
}

#[test]
fn a_step_moves_no_other_thread() {
    each(|tree, state, thread| {
        let mut after = state.clone();
        step(tree, &mut after, thread);
        assert!((0..THREAD_ROOM).all(|other| other == thread || after.places[other] == state.places[other]));
    });
}

#[test]
fn words_and_states_give_each_other_back() {
    each(|_, state, _| assert_eq!(StateWords::of(state).state().as_ref(), Some(state)));
    for row in 0..=255 {
        for (domain, peer, word) in [(0, 0, 0), (1, 0, 0), (0, 1, 0), (0, 0, 1), (1, 1, 0), (1, 1, 1)] {
            let words = PlaceWords { row, domain, peer, word };
            assert!(words.place().map_or(true, |place| PlaceWords::of(place) == words));
        }
    }
}
