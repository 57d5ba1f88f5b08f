//! Cases of the refusals that the ladder does not cover, and of what a refused call leaves unchanged.

use reference::lock_file::{print, run_file, FileAnswer};
use reference::refusals::*;
use reference::table::*;
use reference::text_tree::read_text;
use reference::words::PlaceWords;

fn prints(file: &[u8], text: &str) {
    assert_eq!(String::from_utf8(print(file)).unwrap(), text);
}

/// Domains 1 and 2 under the root, threads 0 and 1 in domain 1, thread 2 in domain 2.
fn tree() -> Tree {
    let mut tree = Tree::new();
    (tree.domains, tree.threads) = (3, 3);
    tree.thresholds[1..3].copy_from_slice(&[2, 16]);
    tree.homes[..3].copy_from_slice(&[1, 1, 2]);
    tree
}

fn step_refusal(change: impl Fn(&mut Tree, &mut State)) -> Option<(u32, u32)> {
    let (mut tree, mut state) = (tree(), State::fresh());
    change(&mut tree, &mut state);
    let came = state.clone();
    let refusal = step_lock(&tree, &mut state, 0).err();
    assert!(refusal.is_none() || state == came);
    refusal.map(|refusal| (refusal.number, refusal.place))
}

#[test]
fn lengths_of_files() {
    let mut file = vec![1, 1, 0, 0];
    file.resize(65_536, 0);
    assert_eq!(&print(&file)[..9], b"ok 32766 ");
    file.push(0);
    prints(&file, "refused 1 0\n");
    prints(&[255; 65_537], "refused 1 0\n");
}

#[test]
fn cut_files() {
    prints(&[], "refused 2 0\n");
    prints(&[1], "refused 2 1\n");
    prints(&[1, 1], "refused 2 2\n");
    prints(&[2], "refused 2 1\n");
    prints(&[2, 1], "refused 2 2\n");
    prints(&[2, 2, 5], "refused 2 3\n");
    prints(&[1, 1, 0], "refused 2 3\n");
    prints(&[1, 1, 0, 1], "refused 2 4\n");
    prints(&[1, 1, 0, 0, 0], "refused 2 5\n");
    prints(&[65, 0, 0], "refused 2 3\n");
}

#[test]
fn bit_maps() {
    prints(&[2, 4], "refused 3 1\n");
    prints(&[3, 0, 128], "refused 3 2\n");
    prints(&[1, 1, 0, 2], "refused 3 3\n");
    prints(&[1, 2, 0, 0, 255], "refused 3 4\n");
    prints(&[0, 1, 0, 3], "refused 3 3\n");
}

#[test]
fn everything_is_read_before_the_counts_are_judged() {
    let mut file = vec![0; 255];
    file[0] = 255;
    file.extend([0, 0]);
    prints(&file, "refused 4 0\n");
    file.push(0);
    prints(&file, "refused 2 258\n");
    prints(&[0, 0, 0], "refused 4 0\n");
    prints(&[1, 0, 0, 9, 9], "refused 5 0\n");
}

#[test]
fn homes() {
    prints(&[3, 0, 0, 3, 0, 1, 1, 0, 1, 0], "refused 9 2\n");
    prints(&[3, 0, 0, 3, 0, 1, 3, 0, 1, 1], "refused 9 0\n");
    prints(&[2, 0, 1, 0, 0], "refused 9 0\n");
}

#[test]
fn domains_without_threads() {
    // An empty leaf next to a full one. Two empty leaves. An inner domain whose leaves are all empty.
    prints(&[3, 0, 0, 1, 0, 1, 1], "refused 16 2\n");
    prints(&[4, 0, 0, 0, 1, 0, 1, 2], "refused 16 1\n");
    prints(&[5, 0, 0, 1, 1, 1, 1, 2, 0, 1, 2, 0], "refused 16 1\n");
    // 8 and 9 come before 16, and 10 and 12 after it.
    prints(&[3, 2, 0, 0, 0, 1, 0, 1, 1], "refused 8 1\n");
    prints(&[3, 0, 0, 2, 0, 1, 1, 1, 0], "refused 9 1\n");
    prints(&[3, 0, 0, 1, 0, 1, 1, 9, 0], "refused 16 2\n");
    let spoilt = step_refusal(|tree, state| {
        tree.homes[2] = 1;
        state.places[0] = Place::Check(0);
    });
    assert_eq!(spoilt, Some((16, 2)));
}

#[test]
fn output_buffer() {
    let file = [1, 1, 0, 0, 0, 0, 0, 0];
    let mut output = [7; 20];
    assert_eq!(run_file(&file, &mut output[..16]), FileAnswer { number: 14, place: 0, length: 0 });
    assert_eq!(output, [7; 20]);
    assert_eq!(run_file(&file, &mut output[..17]), FileAnswer { number: 0, place: 0, length: 17 });
    assert_eq!(&output, b"ok 2 1 0 1 0 0\n0\n\x07\x07\x07");
}

#[test]
fn schedules() {
    let (tree, mut state) = (tree(), State::fresh());
    let schedule = vec![3; 65_537];
    let refusal = |length: usize, state: &mut State| run_lock(&tree, state, &schedule[..length], &mut []).map(|counts| counts.steps);
    assert_eq!(refusal(65_537, &mut state), Err(Refusal { number: 11, place: 0 }));
    assert_eq!(refusal(65_536, &mut state), Err(Refusal { number: 12, place: 0 }));
    assert_eq!(refusal(0, &mut state), Ok(0));
    assert_eq!(step_lock(&tree, &mut state, 3), Err(Refusal { number: 12, place: 0 }));
}

#[test]
fn well_formed_states() {
    assert_eq!(step_refusal(|_, state| state.tails[1] = Some(0)), None);
    assert_eq!(step_refusal(|_, state| state.tails[0] = Some(258)), None);
    assert_eq!(step_refusal(|_, state| state.nexts[0] = Some(0)), None);
    assert_eq!(step_refusal(|_, state| state.nexts[257] = Some(258)), None);
    assert_eq!(step_refusal(|_, state| state.statuses[2] = WAIT), None);
    assert_eq!(step_refusal(|_, state| state.places[0] = Place::Link(1, 0)), None);
    assert_eq!(step_refusal(|_, state| state.places[0] = Place::Grant(0, 258, 9)), None);
    assert_eq!(step_refusal(|_, state| state.places[2] = Place::Prep(2)), None);
    assert_eq!(step_refusal(|tree, _| (tree.parents[0], tree.thresholds[0]) = (9, 0)), None);
}

#[test]
fn states_that_are_not_well_formed() {
    let ten = Some((10, 0));
    assert_eq!(step_refusal(|_, state| state.tails[1] = Some(2)), ten);
    assert_eq!(step_refusal(|_, state| state.tails[0] = Some(0)), ten);
    assert_eq!(step_refusal(|_, state| state.tails[0] = Some(256)), ten);
    assert_eq!(step_refusal(|_, state| state.tails[3] = Some(0)), ten);
    assert_eq!(step_refusal(|_, state| state.nexts[0] = Some(2)), ten);
    assert_eq!(step_refusal(|_, state| state.nexts[0] = Some(320)), ten);
    assert_eq!(step_refusal(|_, state| state.nexts[3] = Some(0)), ten);
    assert_eq!(step_refusal(|_, state| state.nexts[256] = Some(257)), ten);
    assert_eq!(step_refusal(|_, state| state.statuses[256] = 1), ten);
    assert_eq!(step_refusal(|_, state| state.statuses[259] = 1), ten);
    assert_eq!(step_refusal(|_, state| state.places[0] = Place::Wait(2)), ten);
    assert_eq!(step_refusal(|_, state| state.places[0] = Place::Wait(64)), ten);
    assert_eq!(step_refusal(|_, state| state.places[0] = Place::Link(1, 2)), ten);
    assert_eq!(step_refusal(|_, state| state.places[0] = Place::Grant(0, 1, 1)), ten);
    assert_eq!(step_refusal(|_, state| state.places[3] = Place::Inside), ten);
    assert_eq!(step_refusal(|_, state| state.places[255] = Place::Prep(0)), ten);
}

/// The refusal with a ticket root. The change is made to the same tree.
fn ticket_refusal(change: impl Fn(&mut Tree, &mut State)) -> Option<(u32, u32)> {
    step_refusal(|tree, state| {
        tree.ticket_root = true;
        change(tree, state)
    })
}

#[test]
fn well_formed_states_of_a_ticket_root() {
    for place in [Place::Draw, Place::Watch, Place::Raise, Place::Prep(1), Place::Help(1), Place::Grant(1, 0, 9), Place::Check(1)] {
        assert_eq!(ticket_refusal(|_, state| state.places[0] = place), None);
    }
    assert_eq!(ticket_refusal(|_, state| (state.ticket, state.grant) = (7, 40_000)), None);
    assert_eq!(ticket_refusal(|_, state| (state.places[0], state.statuses[257]) = (Place::Watch, 65_535)), None);
    // A status that nobody watches may be anything, even above 65,535. So may the status of the thread's own record below the root.
    assert_eq!(ticket_refusal(|_, state| state.statuses[257] = WAIT), None);
    assert_eq!(ticket_refusal(|_, state| (state.places[0], state.statuses[258]) = (Place::Watch, WAIT)), None);
    assert_eq!(ticket_refusal(|_, state| (state.places[0], state.statuses[0]) = (Place::Watch, WAIT)), None);
    // Several threads watch with one ticket, and there is nobody to raise.
    assert_eq!(ticket_refusal(|_, state| state.places[..3].fill(Place::Watch)), None);
    assert_eq!(ticket_refusal(|_, state| (state.nexts[257], state.tails[1]) = (Some(258), Some(0))), None);
}

#[test]
fn states_that_the_kind_of_root_refuses() {
    let ten = Some((10, 0));
    for place in [Place::Draw, Place::Watch, Place::Raise] {
        assert_eq!(step_refusal(|_, state| state.places[0] = place), ten);
        assert_eq!(ticket_refusal(|_, state| state.places[3] = place), ten);
    }
    let queue_places = [Place::Prep(0), Place::Swap(0), Place::Link(0, 258), Place::Wait(0), Place::Help(0), Place::Cas(0), Place::Linger(0)];
    for place in queue_places.into_iter().chain([Place::Grant(0, 258, 0), Place::Check(0)]) {
        assert_eq!(ticket_refusal(|_, state| state.places[0] = place), ten);
        assert_eq!(step_refusal(|_, state| state.places[0] = place), ten.filter(|_| place == Place::Check(0)));
    }
    assert_eq!(ticket_refusal(|_, state| state.tails[0] = Some(258)), ten);
    assert_eq!(ticket_refusal(|_, state| (state.places[0], state.statuses[257]) = (Place::Watch, 65_536)), ten);
    assert_eq!(ticket_refusal(|_, state| (state.places[2], state.statuses[258]) = (Place::Watch, WAIT)), ten);
    assert_eq!(step_refusal(|_, state| state.ticket = 1), ten);
    assert_eq!(step_refusal(|_, state| state.grant = 1), ten);
    assert_eq!(step_refusal(|_, state| (state.ticket, state.grant) = (65_535, 65_535)), ten);
}

/// Draw, Watch and Raise are at the root, and their numbers name no domain, record or word.
#[test]
fn numbers_of_the_ticket_places() {
    for (row, place) in [(11, Place::Draw), (12, Place::Watch), (13, Place::Raise)] {
        let words = PlaceWords { row, domain: 0, peer: 0, word: 0 };
        assert_eq!((words.place(), PlaceWords::of(place)), (Some(place), words));
        assert_eq!(PlaceWords { domain: 1, ..words }.place(), None);
        assert_eq!(PlaceWords { peer: 1, ..words }.place(), None);
        assert_eq!(PlaceWords { word: 1, ..words }.place(), None);
    }
    assert_eq!(PlaceWords { row: 14, ..PlaceWords::default() }.place(), None);
}

/// Both counters equal the start at a ticket root. They are 0 at a queue root, and if the call is refused.
#[test]
fn fresh_words_also_when_refused() {
    let mut tree = tree();
    let counters = |tree: &Tree, start: u16| {
        let (outcome, state) = fresh_lock(tree, start);
        assert_eq!(State { ticket: 0, grant: 0, ..state.clone() }, State::fresh());
        (outcome.err().map(|refusal| (refusal.number, refusal.place)), state.ticket, state.grant)
    };
    assert_eq!(counters(&tree, 7), (None, 0, 0));
    tree.ticket_root = true;
    assert_eq!(counters(&tree, 0), (None, 0, 0));
    assert_eq!(counters(&tree, 65_535), (None, 65_535, 65_535));
    tree.domains = 65;
    assert_eq!(counters(&tree, 7), (Some((4, 0)), 0, 0));
    tree.domains = 3;
    tree.threads = 257;
    assert_eq!(counters(&tree, 7), (Some((5, 0)), 0, 0));
}

/// Any number except 0 means a ticket root, and a text never gives one.
#[test]
fn numbers_of_the_kind_of_root() {
    let mut words = read_text(b"(#1)").tree;
    assert_eq!(words.ticket_root, 0);
    for (number, ticket_root) in [(0, false), (1, true), (2, true), (256, true), (65_536, true), (u32::MAX, true)] {
        words.ticket_root = number;
        assert_eq!(words.tree().ticket_root, ticket_root);
    }
}

/// States that no run from fresh reaches follow the table: a ticket counter below the grant, and a raise by a thread that did not enter.
#[test]
fn ticket_rows_in_states_not_reached() {
    let mut tree = tree();
    tree.ticket_root = true;
    let mut state = State::fresh();
    (state.ticket, state.grant, state.places[0]) = (3, 9, Place::Draw);
    assert_eq!((step(&tree, &mut state, 0), state.places[0]), (Kind::Move, Place::Watch));
    assert_eq!((state.ticket, state.grant, state.statuses[257]), (4, 9, 3));
    assert_eq!(step(&tree, &mut state, 0), Kind::Stay);
    state.places[2] = Place::Raise;
    assert_eq!((step(&tree, &mut state, 2), state.places[2], state.grant), (Kind::Move, Place::Help(2), 10));
    state.statuses[257] = 10;
    assert_eq!((step(&tree, &mut state, 0), state.places[0]), (Kind::RootEntry, Place::Inside));
    assert_eq!((step(&tree, &mut state, 0), state.places[0]), (Kind::Leaving, Place::Check(1)));
    assert_eq!((step(&tree, &mut state, 0), state.places[0]), (Kind::Move, Place::Raise));
}

/// States that no run from fresh reaches follow the table.
#[test]
fn rows_in_states_not_reached() {
    let (tree, mut state) = (tree(), State::fresh());
    (state.places[0], state.statuses[0], state.nexts[0]) = (Place::Check(1), 3, Some(1));
    step(&tree, &mut state, 0);
    assert_eq!(state.places[0], Place::Help(0));
    (state.places[0], state.statuses[0]) = (Place::Check(1), 0);
    step(&tree, &mut state, 0);
    assert_eq!(state.places[0], Place::Grant(1, 1, 1));
    (state.places[0], state.statuses[257]) = (Place::Wait(0), 7);
    assert_eq!((step(&tree, &mut state, 0), state.places[0]), (Kind::RootEntry, Place::Inside));
}
