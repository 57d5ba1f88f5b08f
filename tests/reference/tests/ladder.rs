//! The cases of document 01's ladder on the step table, with those given as files run through the file call. Also the cases of document 02's ticket root.

use reference::draft::{random_draft, Draft, Size};
use reference::lock_file::{print, read};
use reference::random::Random;
use reference::refusals::*;
use reference::schedules::{schedule, STYLES};
use reference::side_by_side::{compare, Coverage};
use reference::table::*;

const PRINTED: [u16; 22] = [0, 0, 0, 0, 1, 1, 1, 1, 0, 0, 0, 1, 2, 2, 2, 2, 2, 1, 1, 1, 1, 2];

fn file(head: &[u8], schedule: &[u16]) -> Vec<u8> {
    let mut file = head.to_vec();
    file.extend(schedule.iter().flat_map(|thread| thread.to_le_bytes()));
    file
}

fn printed_head() -> Vec<u8> {
    vec![3, 2, 2, 0, 0, 3, 0, 1, 1, 0, 1, 2]
}

fn repeated(parts: &[(u16, usize)]) -> Vec<u16> {
    parts.iter().flat_map(|&(thread, times)| std::iter::repeat(thread).take(times)).collect()
}

fn prints(file: &[u8], text: &str) {
    assert_eq!(String::from_utf8(print(file)).unwrap(), text);
}

/// A draft with these parents and homes, all thresholds 16, and an empty schedule.
fn draft(parents: Vec<u8>, homes: Vec<u8>) -> Draft {
    Draft {
        domains: parents.len() as u8,
        threads: homes.len() as u16,
        thresholds: vec![16; parents.len()],
        parents,
        homes,
        schedule: vec![],
        ticket_root: false,
    }
}

fn draft_prints(draft: &Draft, text: &str) {
    for seed in 0..8 {
        prints(&draft.write(&mut Random::new(seed)), text);
    }
}

const EMPTY: &str = "ok 0 0 0 0 0 0\n";

#[test]
fn printed_example() {
    prints(&file(&printed_head(), &PRINTED), "ok 22 3 1 2 1 0\n0\n1\n2\n");
}

#[test]
fn last_thread_number_changed() {
    let mut schedule = PRINTED;
    schedule[21] = 3;
    prints(&file(&printed_head(), &schedule), "refused 12 21\n");
}

#[test]
fn numbers_of_domains() {
    draft_prints(&draft(vec![], vec![0]), "refused 4 0\n");
    let star = |domains: usize| draft(vec![0; domains], (1..domains).map(|home| home as u8).collect());
    draft_prints(&star(64), EMPTY);
    draft_prints(&star(65), "refused 4 0\n");
}

#[test]
fn numbers_of_threads() {
    draft_prints(&draft(vec![0], vec![0; 256]), EMPTY);
    draft_prints(&draft(vec![0], vec![0; 257]), "refused 5 0\n");
    draft_prints(&draft(vec![0], vec![]), "refused 5 0\n");
}

#[test]
fn chains() {
    draft_prints(&draft(vec![0, 0, 1, 2, 3, 4], vec![5]), EMPTY);
    draft_prints(&draft(vec![0, 0, 1, 2, 3, 4, 5], vec![6]), "refused 7 6\n");
}

#[test]
fn parent_before_threshold() {
    let mut tree = draft(vec![0, 0, 2], vec![1]);
    tree.thresholds[1] = 0;
    draft_prints(&tree, "refused 6 2\n");
    tree.parents[2] = 0;
    draft_prints(&tree, "refused 8 1\n");
}

#[test]
fn one_domain_one_thread() {
    prints(&file(&[1, 1, 0, 0], &[0, 0]), "ok 2 1 0 1 0 0\n0\n");
}

#[test]
fn empty_schedule() {
    prints(&printed_head(), EMPTY);
}

const TWO_LEVELS: [u8; 9] = [2, 2, 2, 0, 2, 0, 1, 1, 0];

fn two_levels_schedule() -> Vec<u16> {
    repeated(&[(0, 4), (1, 2), (0, 7), (1, 1), (0, 2), (1, 3)])
}

#[test]
fn nineteen_entries() {
    prints(&file(&TWO_LEVELS, &two_levels_schedule()), "ok 19 2 1 2 0 0\n0\n1\n");
}

const THREE_LEVELS: [u8; 18] = [4, 2, 2, 0, 3, 1, 1, 0, 3, 1, 1, 0, 2, 0, 1, 2, 1, 3];

fn three_levels_schedule() -> Vec<u16> {
    repeated(&[(0, 6), (1, 6), (0, 4), (1, 1)])
}

#[test]
fn three_levels() {
    prints(&file(&THREE_LEVELS, &three_levels_schedule()), "ok 17 2 1 1 0 1\n0\n1\n");
}

#[test]
fn check_at_the_root_handed_in() {
    let (tree, _) = tree_of(&printed_head());
    let mut state = State::fresh();
    state.places[0] = Place::Check(0);
    let refused = Refusal { number: 10, place: 0 };
    assert_eq!(step_lock(&tree, &mut state, 0), Err(refused));
    assert_eq!(run_lock(&tree, &mut state, &[], &mut []), Err(refused));
    state.places[0] = Place::Check(1);
    assert_eq!(step_lock(&tree, &mut state, 0), Ok(Kind::Move));
}

fn tree_of(head: &[u8]) -> (Tree, Vec<u8>) {
    let (tree, schedule) = read(head).unwrap();
    (tree, schedule.to_vec())
}

#[test]
fn no_passed_entry_with_thresholds_of_one() {
    let mut random = Random::new(1);
    for number in 0..1000 {
        let mut draft = random_draft(&mut random, Size { domains: 16, threads: 8 });
        draft.thresholds.fill(1);
        let tree = draft.tree();
        let entries = schedule(&mut random, &tree, STYLES[number % STYLES.len()], 600);
        let counts = run(&tree, &mut State::fresh(), entries.into_iter(), &mut Vec::new());
        assert_eq!((counts.passed, counts.crossed, counts.root), (0, 0, counts.entries));
    }
}

#[test]
fn largest_threshold() {
    let mut tree = draft(vec![0, 0], vec![1]);
    tree.thresholds[1] = 65_535;
    draft_prints(&tree, EMPTY);
}

#[test]
fn trace_buffer_as_long_as_the_schedule() {
    let (tree, _) = tree_of(&printed_head());
    let mut state = State::fresh();
    let mut trace = [7; 22];
    let short = run_lock(&tree, &mut state, &PRINTED, &mut trace[..21]);
    assert_eq!((short, state == State::fresh(), trace), (Err(Refusal { number: 13, place: 0 }), true, [7; 22]));
    let counts = Counts { steps: 22, entries: 3, stays: 1, root: 2, passed: 1, crossed: 0 };
    assert_eq!(run_lock(&tree, &mut state, &PRINTED, &mut trace), Ok(counts));
    assert_eq!(trace[..5], [0, 1, 2, 7, 7]);
}

#[test]
fn three_more_turns_in_wait() {
    let (tree, _) = tree_of(&[1, 2, 0, 0, 0]);
    let mut state = State::fresh();
    let counts = run(&tree, &mut state, [0, 0, 1, 1, 1, 1, 1, 1].into_iter(), &mut Vec::new());
    assert_eq!((counts.stays, state.places[1]), (3, Place::Wait(0)));
}

#[test]
fn the_listing_agrees_on_the_cases() {
    let cases: [(&[u8], Vec<u16>); 6] = [
        (&printed_head(), PRINTED.to_vec()),
        (&TWO_LEVELS, two_levels_schedule()),
        (&THREE_LEVELS, three_levels_schedule()),
        (&[1, 2, 0, 0, 0], vec![0, 0, 1, 1, 1, 1, 1, 1]),
        (&ROOT_ALONE, root_alone_schedule()),
        (&TWO_LEVELS_TICKET, two_levels_ticket_schedule()),
    ];
    for (head, schedule) in cases {
        for start in [0, 65_535] {
            compare(&tree_of(head).0, start, &schedule, &mut Coverage::default()).unwrap();
        }
    }
}

#[test]
fn home_at_a_ticket_root() {
    prints(&file(&[129, 1, 0, 0], &[0]), "ok 1 1 0 1 0 0\n0\n");
    prints(&file(&[129, 1, 0, 0], &[0, 0, 0, 0]), "ok 4 2 0 2 0 0\n0\n0\n");
}

const ROOT_ALONE: [u8; 5] = [129, 2, 0, 0, 0];

/// 0 draws and enters, 1 draws and stays three times, 0 leaves and raises, 1 enters.
fn root_alone_schedule() -> Vec<u16> {
    repeated(&[(0, 1), (1, 4), (0, 2), (1, 1)])
}

#[test]
fn two_members_of_a_ticket_root() {
    prints(&file(&ROOT_ALONE, &root_alone_schedule()), "ok 8 2 3 2 0 0\n0\n1\n");
    prints(&file(&ROOT_ALONE, &root_alone_schedule()[..7]), "ok 7 1 3 1 0 0\n0\n");
}

const TWO_LEVELS_TICKET: [u8; 9] = [130, 2, 2, 0, 2, 0, 1, 1, 0];

/// 0 enters by a draw for its domain and passes to 1 at home. 1 raises, and then releases its home.
fn two_levels_ticket_schedule() -> Vec<u16> {
    repeated(&[(0, 3), (1, 4), (0, 3), (1, 6)])
}

#[test]
fn two_levels_with_a_ticket_root() {
    prints(&file(&TWO_LEVELS_TICKET, &two_levels_ticket_schedule()), "ok 16 2 1 1 1 0\n0\n1\n");
}

#[test]
fn three_draws_from_65535() {
    let (tree, _) = tree_of(&[129, 3, 0, 0, 0, 0]);
    let mut state = State::fresh_at(&tree, 65_535);
    assert_eq!((state.ticket, state.grant), (65_535, 65_535));
    let kinds: Vec<Kind> = (0..3).map(|thread| step(&tree, &mut state, thread)).collect();
    assert_eq!(kinds, [Kind::RootEntry, Kind::Move, Kind::Move]);
    assert_eq!((state.ticket, state.grant, &state.statuses[..3]), (2, 65_535, &[65_535, 0, 1][..]));
    assert_eq!(state.places[..3], [Place::Inside, Place::Watch, Place::Watch]);
    let mut trace = Vec::new();
    let counts = run(&tree, &mut state, repeated(&[(0, 2), (2, 1), (1, 3), (2, 1)]).into_iter(), &mut trace);
    assert_eq!((counts.root, counts.stays, trace), (2, 1, vec![1, 2]));
    assert_eq!((state.ticket, state.grant), (2, 1));
}

#[test]
fn first_bytes_of_ticket_roots() {
    prints(&[128], "refused 2 1\n");
    prints(&[128, 1, 0, 0], "refused 4 0\n");
    let with_domains = |first: u8, domains: u8| {
        let homes: Vec<u8> = (1..domains).collect();
        let mut tree = draft(vec![0; domains as usize], homes);
        tree.ticket_root = true;
        let file = tree.write(&mut Random::new(1));
        assert_eq!(file[0], first);
        file
    };
    prints(&with_domains(192, 64), EMPTY);
    prints(&with_domains(193, 65), "refused 4 0\n");
    prints(&with_domains(255, 127), "refused 4 0\n");
}
