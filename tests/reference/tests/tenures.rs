//! Document 02, (vii): entries, tenures and the longest tenure of each domain, computed by hand, from the steps, and from fresh. Also refusals 10 and 19 for counters.

use reference::chain::is_on_path;
use reference::counters::{first_past, first_past_by_steps, Counters, MOST_COUNTED};
use reference::draft::{random_draft, Size};
use reference::random::Random;
use reference::random_file::valid_draft;
use reference::random_state::{random_start, random_state, tree_words};
use reference::refusals::*;
use reference::schedules::{schedule, STYLES};
use reference::standing::standing;
use reference::table::*;
use reference::waits::run_waits;
use reference::words::{StateWords, TreeWords};

const PRINTED: [u16; 22] = [0, 0, 0, 0, 1, 1, 1, 1, 0, 0, 0, 1, 2, 2, 2, 2, 2, 1, 1, 1, 1, 2];

/// The root's parent and threshold come first.
fn tree(parents: &[u8], thresholds: &[u16], homes: &[u8], ticket_root: bool) -> Tree {
    let mut tree = Tree { domains: parents.len(), threads: homes.len(), ticket_root, ..Tree::new() };
    tree.parents[..parents.len()].copy_from_slice(parents);
    tree.thresholds[..parents.len()].copy_from_slice(thresholds);
    tree.homes[..homes.len()].copy_from_slice(homes);
    tree
}

fn printed_tree() -> Tree {
    tree(&[0, 0, 0], &[0, 2, 16], &[1, 1, 2], false)
}

fn after(tree: &Tree, start: u16, parts: &[(u16, usize)]) -> Counters {
    let mut state = State::fresh_at(tree, start);
    let schedule = parts.iter().flat_map(|&(thread, times)| vec![thread; times]);
    run(tree, &mut state, schedule, &mut Vec::new());
    state.counters
}

#[test]
fn printed_example() {
    let mut state = State::fresh();
    let tree = printed_tree();
    run(&tree, &mut state, PRINTED[..9].iter().copied(), &mut Vec::new());
    assert_eq!((state.counters.of(0), state.counters.of(1), state.counters.of(2)), ([0; 3], [1, 1, 1], [0; 3]));
    // the passing Check sets the length before its Grant is taken and before thread 1 enters
    step(&tree, &mut state, 0);
    assert_eq!(state.counters.of(1), [1, 1, 2]);
    run(&tree, &mut state, PRINTED[10..].iter().copied(), &mut Vec::new());
    assert_eq!((state.counters.of(0), state.counters.of(1), state.counters.of(2)), ([0; 3], [2, 1, 2], [1, 1, 1]));
}

/// The threshold keeps thread 0 from passing, and thread 1 gets ACQUIRE_PARENT. This starts no tenure. The leaf's next Swap at the root does.
#[test]
fn acquire_parent_to_a_thread() {
    let tree = tree(&[0, 0], &[0, 1], &[1, 1], false);
    let granted = [(0, 4), (1, 3), (0, 6)];
    assert_eq!(after(&tree, 0, &granted).of(1), [1, 1, 1]);
    assert_eq!(after(&tree, 0, &[&granted[..], &[(1, 3)]].concat()).of(1), [2, 2, 1]);
}

/// Domain 1 has the leaves 2 and 3. Granting ACQUIRE_PARENT to domain 3's record starts a tenure of domain 3, and none of domain 1.
#[test]
fn acquire_parent_to_a_domain() {
    let tree = tree(&[0, 0, 1, 1], &[0, 1, 1, 1], &[2, 3], false);
    let checked = [(0, 6), (1, 5), (0, 6)];
    let before = after(&tree, 0, &checked);
    assert_eq!((before.of(1), before.of(2), before.of(3)), ([1, 1, 1], [1, 1, 1], [0; 3]));
    let granted = after(&tree, 0, &[&checked[..], &[(0, 1)]].concat());
    assert_eq!((granted.of(1), granted.of(3)), ([1, 1, 1], [0, 1, 1]));
    let entered = after(&tree, 0, &[&checked[..], &[(0, 1), (1, 3)]].concat());
    assert_eq!((entered.of(1), entered.of(2), entered.of(3)), ([2, 2, 1], [1, 1, 1], [1, 1, 1]));
}

/// An inner domain's tenure becomes longer only by its own Checks, and so does a leaf's.
#[test]
fn a_pass_between_leaves() {
    let tree = tree(&[0, 0, 1, 1], &[0, 2, 2, 2], &[2, 3], false);
    let counters = after(&tree, 0, &[(0, 6), (1, 5), (0, 4), (1, 1)]);
    assert_eq!((counters.of(1), counters.of(2), counters.of(3)), ([2, 1, 2], [1, 1, 1], [1, 1, 1]));
}

#[test]
fn draws_and_raises() {
    let tree = tree(&[0, 0, 0], &[0, 2, 2], &[1, 2], true);
    let watching = [(0, 3), (1, 3), (0, 2)];
    let counters = after(&tree, 65_535, &watching);
    assert_eq!((counters.of(1), counters.of(2)), ([1, 1, 1], [0; 3]));
    assert_eq!(after(&tree, 65_535, &[&watching[..], &[(0, 1)]].concat()).of(2), [0, 1, 1]);
    assert_eq!(after(&tree, 65_535, &[&watching[..], &[(0, 1), (1, 1)]].concat()).of(2), [1, 1, 1]);
}

/// A raise that shows one ticket to several members: each child starts one tenure, however many of its threads watch, and none if nobody watches.
#[test]
fn a_raise_for_several() {
    let tree = tree(&[0, 0, 0, 0], &[0, 2, 2, 2], &[1, 1, 2, 3, 1], true);
    let mut state = State::fresh();
    (state.ticket, state.grant) = (9, 4);
    state.places[..5].copy_from_slice(&[Place::Watch, Place::Watch, Place::Watch, Place::Idle, Place::Raise]);
    state.statuses[257..260].fill(5);
    step(&tree, &mut state, 4);
    assert_eq!((state.counters.of(1), state.counters.of(2), state.counters.of(3)), ([0, 1, 1], [0, 1, 1], [0; 3]));
}

/// Nothing is counted if the root is home.
#[test]
fn the_root_alone() {
    for ticket_root in [false, true] {
        let tree = tree(&[0], &[0], &[0, 0], ticket_root);
        assert_eq!(after(&tree, 0, &[(0, 2), (1, 3), (0, 4), (1, 5)]), Counters::ZERO);
    }
}

/// What a step counts for a domain, derived from the places before and after it and from the ungranted members: entries, tenures and a length.
fn counted(tree: &Tree, before: &State, after: &State, thread: usize, domain: usize) -> [u64; 3] {
    let record = domain_record(domain);
    let mut given = standing(tree, before, thread).ends;
    match before.places[thread] {
        Place::Swap(at) if before.tails[at as usize].is_none() => given.push(tree.record(thread, at as usize)),
        Place::Draw if after.places[thread] == Place::Inside => given.push(tree.record(thread, ROOT)),
        _ => (),
    }
    let tenures = given.iter().filter(|&&other| other == record).count() as u64;
    let length = match (before.places[thread], after.places[thread]) {
        (Place::Check(at), Place::Grant(_, _, word)) if at as usize == domain => word,
        _ => tenures.min(1),
    };
    let enters = before.places[thread] != Place::Inside && after.places[thread] == Place::Inside;
    [(enters && is_on_path(tree, thread, domain)) as u64, tenures, length]
}

#[test]
fn each_step_counts_what_it_reports() {
    let mut random = Random::new(1);
    let mut met = [0; 4];
    for _ in 0..20_000 {
        let draft = valid_draft(&mut random);
        let tree = tree_words(&mut random, &draft).tree();
        let before = random_state(&mut random, &tree).state().expect("a well-formed state");
        let thread = random.below(tree.threads);
        let mut after = before.clone();
        step(&tree, &mut after, thread);
        for domain in 1..tree.domains {
            let [entries, tenures, length] = counted(&tree, &before, &after, thread, domain);
            let [old_entries, old_tenures, old_longest] = before.counters.of(domain);
            assert_eq!(after.counters.of(domain), [old_entries + entries, old_tenures + tenures, old_longest.max(length)]);
            assert!(tenures <= 1);
            met = [met[0] + entries, met[1] + tenures, met[2] + (length > 1) as u64, met[3] + (length > old_longest) as u64];
        }
        assert_eq!(after.counters.of(ROOT), [0; 3]);
        assert!((tree.domains..DOMAIN_ROOM).all(|domain| after.counters.of(domain) == [0; 3]));
        let mut other = State { counters: Counters::ZERO, ..before.clone() };
        step(&tree, &mut other, thread);
        assert_eq!(State { counters: Counters::ZERO, ..after }, State { counters: Counters::ZERO, ..other }, "no step reads a counter");
    }
    assert!(met.iter().all(|&times| times > 20), "{met:?}");
}

#[test]
fn histories_from_fresh() {
    let mut random = Random::new(1);
    let mut met = [0; 3];
    for number in 0..3_000 {
        let size = Size { domains: random.pick(&[2, 3, 8, 16]), threads: random.pick(&[2, 4, 8, 16]) };
        let mut draft = random_draft(&mut random, size);
        draft.thresholds.iter_mut().for_each(|threshold| *threshold = random.between(1, 3) as u16);
        let tree = draft.tree();
        let mut state = State::fresh_at(&tree, random_start(&mut random));
        let entries = schedule(&mut random, &tree, STYLES[number % STYLES.len()], 600);
        let counts = run(&tree, &mut state, entries.into_iter(), &mut Vec::new());
        let children_of = |parent: usize| (1..tree.domains).filter(move |&child| tree.parents[child] as usize == parent);
        let sum = |parent: usize| children_of(parent).map(|child| state.counters.entries[child]).sum::<u64>();
        assert!(tree.domains == 1 || sum(ROOT) == counts.entries as u64);
        for domain in 1..tree.domains {
            let [entries, tenures, longest] = state.counters.of(domain);
            assert_eq!(longest == 0, tenures == 0);
            assert!(longest <= tree.thresholds[domain] as u64);
            if leaves(&tree)[domain] {
                assert!(entries <= tenures * longest && tenures <= entries + 1);
                met = [met[0] + (entries == tenures * longest && longest > 1) as u64, met[1] + (tenures == entries + 1) as u64, met[2]];
            } else {
                assert_eq!(entries, sum(domain));
                met[2] += (entries > 0) as u64;
            }
        }
    }
    assert!(met.iter().all(|&times| times > 20), "{met:?}");
}

#[test]
fn counters_that_10_refuses() {
    let refusal = |change: &dyn Fn(&mut Counters)| {
        let mut state = State::fresh();
        change(&mut state.counters);
        let came = state.clone();
        let refusal = step_lock(&printed_tree(), &mut state, 0).err();
        assert!(refusal.is_none() || state == came);
        refusal.map(|Refusal { number, place }| (number, place))
    };
    let ten = Some((10, 0));
    for domain in [0, 3, 63] {
        assert_eq!(refusal(&|counters| counters.entries[domain] = 1), ten);
        assert_eq!(refusal(&|counters| counters.tenures[domain] = 1), ten);
        assert_eq!(refusal(&|counters| counters.longest[domain] = 1), ten);
    }
    assert_eq!(refusal(&|counters| counters.longest[1] = 2), None);
    assert_eq!(refusal(&|counters| counters.longest[1] = 3), ten);
    assert_eq!(refusal(&|counters| counters.longest[2] = 17), ten);
    assert_eq!(refusal(&|counters| counters.entries[1] = MOST_COUNTED), None);
    assert_eq!(refusal(&|counters| counters.tenures[2] = MOST_COUNTED), None);
    assert_eq!(refusal(&|counters| counters.entries[1] = MOST_COUNTED + 1), ten);
    assert_eq!(refusal(&|counters| counters.tenures[2] = u64::MAX), ten);
}

/// The printed example with counters around 2^63. The first step that would push a counter past it is at a different position each time.
#[test]
fn positions_of_19() {
    let refusal = |change: &dyn Fn(&mut Counters)| {
        let mut state = State::fresh();
        change(&mut state.counters);
        let (came, mut trace) = (state.clone(), [9; 22]);
        let refusal = run_lock(&printed_tree(), &mut state, &PRINTED, &mut trace).err();
        assert!(refusal.is_none() || state == came && trace == [9; 22]);
        refusal.map(|Refusal { number, place }| (number, place))
    };
    assert_eq!(refusal(&|counters| counters.entries[1] = MOST_COUNTED), Some((19, 3)));
    assert_eq!(refusal(&|counters| counters.entries[1] = MOST_COUNTED - 1), Some((19, 11)));
    assert_eq!(refusal(&|counters| counters.entries[1] = MOST_COUNTED - 2), None);
    assert_eq!(refusal(&|counters| counters.tenures[1] = MOST_COUNTED), Some((19, 3)));
    assert_eq!(refusal(&|counters| counters.tenures[1] = MOST_COUNTED - 1), None);
    assert_eq!(refusal(&|counters| counters.tenures[2] = MOST_COUNTED), Some((19, 20)));
    assert_eq!(refusal(&|counters| counters.entries[2] = MOST_COUNTED), Some((19, 21)));
}

/// For a single step, 19 has place 0. 10, 12, 13 and 18 come before it.
#[test]
fn order_of_19() {
    let (tree, mut state) = (printed_tree(), State::fresh());
    run(&tree, &mut state, PRINTED[..3].iter().copied(), &mut Vec::new());
    state.counters.tenures[1] = MOST_COUNTED;
    let came = state.clone();
    assert_eq!(step_lock(&tree, &mut state, 0), Err(Refusal { number: 19, place: 0 }));
    assert_eq!(step_lock(&tree, &mut state, 3), Err(Refusal { number: 12, place: 0 }));
    assert_eq!(run_lock(&tree, &mut state, &[1, 0], &mut [0; 1]), Err(Refusal { number: 13, place: 0 }));
    assert_eq!(run_lock(&tree, &mut state, &[1, 0], &mut [0; 2]), Err(Refusal { number: 19, place: 1 }));
    assert_eq!(state, came);
    let (words, state) = (TreeWords::of(&tree), StateWords::of(&state));
    let waits = |room: usize, rows: usize| {
        let (mut trace, mut rows) = (vec![9; room], vec![7; rows]);
        let reply = run_waits(&words, &state, &[1, 0], &mut trace, &mut rows);
        assert!(reply.state == state && trace.iter().all(|&thread| thread == 9) && rows.iter().all(|&number| number == 7));
        (reply.number, reply.place)
    };
    assert_eq!((waits(1, 19), waits(2, 19), waits(2, 20)), ((13, 0), (18, 0), (19, 1)));
}

/// The short way takes no step if every counter is below 2^63 by at least the schedule's length. It agrees with the steps.
#[test]
fn room_for_the_schedule() {
    let mut random = Random::new(1);
    let mut met = [0; 2];
    for _ in 0..10_000 {
        let draft = valid_draft(&mut random);
        let tree = tree_words(&mut random, &draft).tree();
        let state = random_state(&mut random, &tree).state().expect("a well-formed state");
        let past = first_past_by_steps(&tree, &state, &draft.schedule);
        assert_eq!(first_past(&tree, &state, &draft.schedule), past);
        met[past.is_some() as usize] += 1;
    }
    assert!(met.iter().all(|&times| times > 100), "{met:?}");
}
