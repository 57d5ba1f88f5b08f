//! Compares the library's calls on a caller's tree and state, including a run with kinds, with the step table's. Without the library it only counts what the cases cover.

use reference::calls::{Calls, TABLE};
use reference::kinds::ROW;
use reference::library;
use reference::met::Met;
use reference::options::{conclude, Options};
use reference::random::Random;
use reference::random_file::{broken_draft, valid_draft};
use reference::random_state::{late_state, random_start, random_state, spoil, tree_words};
use reference::refusals::{accept_tree, LONGEST_SCHEDULE};
use reference::state_met::{Outcome, StateMet};
use reference::words::*;
use std::process::exit;

const CANARY: usize = 16;
const REFUSALS: [usize; 16] = [4, 5, 6, 7, 8, 9, 16, 10, 11, 12, 13, 28, 19, 30, 26, 29];

#[derive(Clone, Copy, Debug)]
enum Call {
    Fresh,
    FreshInPlace,
    Step,
    StepInPlace,
    Run,
    RunKinds,
    CheckState,
    CheckSteps,
}

/// The input of one call. The buffers for trace and kinds are between canaries.
struct Case {
    call: Call,
    tree: TreeWords,
    start: u16,
    state: StateWords,
    schedule: Vec<u16>,
    trace: Vec<u16>,
    rows: Vec<u16>,
    named: Named,
}

/// The kinds and domains given for the schedule's steps: those of the table, sometimes with one changed or one missing.
#[derive(Default)]
struct Named {
    kinds: Vec<u16>,
    domains: Vec<u16>,
}

/// What a call returned and left in its buffers. Only a run has counts, and only a step has a kind and a domain.
#[derive(PartialEq, Eq)]
struct Left {
    reply: RunReply,
    step: StepAnswer,
    trace: Vec<u16>,
    written: u32,
    rows: Vec<u16>,
}

fn random_case(random: &mut Random) -> Case {
    let call = random.pick(&[Call::Fresh, Call::FreshInPlace, Call::Step, Call::StepInPlace, Call::Run, Call::Run, Call::Run, Call::RunKinds, Call::RunKinds, Call::CheckState, Call::CheckSteps, Call::CheckSteps]);
    let draft = if random.one_in(5) { broken_draft(random) } else { valid_draft(random) };
    let tree = tree_words(random, &draft);
    let schedule = case_schedule(random, draft.schedule, tree.threads);
    let state = case_state(random, &tree, schedule.len());
    let room = match random.below(6) {
        0 => schedule.len().saturating_sub(random.between(1, 2)),
        1..=3 => schedule.len(),
        _ => schedule.len() + random.below(20),
    };
    let trace = (0..CANARY + room + CANARY).map(|_| random.below(65_536) as u16).collect();
    let row_room = match random.below(6) {
        0 => (ROW * schedule.len()).saturating_sub(random.between(1, 3)),
        1..=3 => ROW * schedule.len(),
        _ => ROW * schedule.len() + random.below(20),
    };
    let rows = (0..CANARY + row_room + CANARY).map(|_| random.below(65_536) as u16).collect();
    let named = if matches!(call, Call::CheckSteps) { named_steps(random, &tree, &state, &schedule) } else { Named::default() };
    Case { call, tree, start: random_start(random), state, schedule, trace, rows, named }
}

fn named_steps(random: &mut Random, tree: &TreeWords, state: &StateWords, schedule: &[u16]) -> Named {
    let short = &schedule[..schedule.len().min(LONGEST_SCHEDULE)];
    let (mut trace, mut rows) = (vec![0; short.len()], vec![0; ROW * short.len()]);
    (TABLE.run_kinds)(tree, state, short, &mut trace, &mut rows);
    let column = |at: usize| (0..schedule.len()).map(|k| rows.get(ROW * k + at).copied().unwrap_or(0)).collect::<Vec<u16>>();
    let mut named = Named { kinds: column(0), domains: column(1) };
    let position = random.below(schedule.len());
    match random.below(8) {
        0 => named.kinds[position] = random.pick(&[0, 1, 2, 5, 8, 9, 65_535]),
        1 => named.domains[position] = random.pick(&[0, 1, 2, 63, 64, 65_535]),
        2 => {
            named.kinds.pop();
        }
        3 => named.domains.push(0),
        _ => {}
    }
    named
}

fn case_state(random: &mut Random, words: &TreeWords, length: usize) -> StateWords {
    let tree = words.tree();
    if accept_tree(&tree).is_err() {
        let mut state = StateWords::fresh();
        state.places.rows[255] = random.pick(&[0, 11, 14]);
        (state.ticket, state.grant) = (random_start(random), random_start(random));
        state.counters.entries[0] = random.pick(&[0, 1, u64::MAX]);
        return state;
    }
    if length > 10_000 && !random.one_in(4) {
        return late_state(random, &tree);
    }
    let mut state = random_state(random, &tree);
    if random.one_in(4) {
        spoil(random, &tree, &mut state);
    }
    state
}

/// Sometimes too long, sometimes with an entry that names no thread. Never empty, because a step takes its first entry.
fn case_schedule(random: &mut Random, mut schedule: Vec<u16>, threads: u32) -> Vec<u16> {
    if random.one_in(500) {
        schedule.resize(LONGEST_SCHEDULE + random.below(2), 0);
    }
    if schedule.is_empty() {
        schedule.push(0);
    }
    if random.one_in(10) {
        let position = random.below(schedule.len());
        schedule[position] = random.pick(&[threads as u16, 256, 65_535]);
    }
    schedule
}

fn make(calls: Calls, case: &Case) -> Left {
    let (mut state, mut trace, mut rows) = (case.state, case.trace.clone(), case.rows.clone());
    let mut written = 0;
    let mut step = StepAnswer::default();
    let reply = match case.call {
        Call::Fresh => without_counts((calls.fresh)(&case.tree, case.start)),
        Call::FreshInPlace => {
            let (number, place) = (calls.fresh_in_place)(&case.tree, &mut state, case.start);
            without_counts(Reply { number, place, state })
        }
        Call::Step => {
            let StepReply { answer, state } = (calls.step)(&case.tree, &state, case.schedule[0]);
            step = answer;
            without_counts(Reply { number: answer.number, place: answer.place, state })
        }
        Call::StepInPlace => {
            step = (calls.step_in_place)(&case.tree, &mut state, case.schedule[0]);
            without_counts(Reply { number: step.number, place: step.place, state })
        }
        Call::Run => {
            let end = trace.len() - CANARY;
            (calls.run)(&case.tree, &state, &case.schedule, &mut trace[CANARY..end])
        }
        Call::RunKinds => {
            let (end, rows_end) = (trace.len() - CANARY, rows.len() - CANARY);
            let reply = (calls.run_kinds)(&case.tree, &state, &case.schedule, &mut trace[CANARY..end], &mut rows[CANARY..rows_end]);
            written = reply.rows;
            reply.run()
        }
        Call::CheckSteps => {
            let reply = (calls.check_steps)(&case.tree, &state, &case.schedule, &case.named.kinds, &case.named.domains);
            written = reply.checked as u32;
            without_counts(Reply { number: reply.number, place: reply.place as u32, state: reply.state })
        }
        Call::CheckState => {
            let (number, place) = (calls.check_state)(&case.tree, &state);
            without_counts(Reply { number, place, state })
        }
    };
    Left { reply, step, trace, written, rows }
}

fn without_counts(Reply { number, place, state }: Reply) -> RunReply {
    RunReply { number, place, steps: 0, entries: 0, stays: 0, root: 0, passed: 0, crossed: 0, state }
}

fn main() {
    let options = Options::read(100_000, 1_000_000);
    let library = library::calls();
    let subject =
        if library.is_some() { "the library's calls against the step table" } else { "no library with these calls named, cases only counted" };
    println!("{subject}: {} cases, seed {}", options.count, options.seed);
    let mut random = Random::new(options.seed);
    let mut met = Met::new(&REFUSALS);
    let mut state_met = StateMet::default();
    for number in 0..options.count {
        let case = random_case(&mut random);
        let table = make(TABLE, &case);
        if let Some(other) = library.map(|calls| make(calls, &case)).filter(|other| *other != table) {
            println!("case {number} differs");
            report(&case, &table, &other);
            exit(1);
        }
        met.count(table.reply.number);
        if !matches!(case.call, Call::Fresh | Call::FreshInPlace | Call::CheckSteps) {
            let schedule = match case.call {
                Call::Run | Call::RunKinds => &case.schedule[..],
                Call::CheckState => &[],
                _ => &case.schedule[..1],
            };
            let RunReply { number, place, .. } = table.reply;
            state_met.count(&case.tree, &case.state, Outcome { number, place, schedule });
        }
    }
    met.print();
    state_met.print();
    conclude(met.complete() && state_met.complete(), library.is_some(), &["HMCS_LIBRARY", "HMCS_CALLS"]);
}

fn report(case: &Case, table: &Left, other: &Left) {
    let (domains, threads) = ((case.tree.domains as usize).min(64), (case.tree.threads as usize).min(256));
    println!("{:?}, start {}, ticket root {}", case.call, case.start, case.tree.ticket_root);
    println!("trace buffer of {} elements, schedule {:?}", case.trace.len() - 2 * CANARY, case.schedule);
    println!("{} domains, parents {:?}, thresholds {:?}", case.tree.domains, &case.tree.parents[..domains], &case.tree.thresholds[..domains]);
    println!("{} threads, homes {:?}", case.tree.threads, &case.tree.homes[..threads]);
    let fresh = StateWords::fresh();
    println!("handed in, where not fresh: {}", differences(&fresh, &case.state));
    println!("step table: {}", summary(table));
    println!("library:    {}", summary(other));
    println!("state, step table's and library's where they differ: {}", differences(&table.reply.state, &other.reply.state));
    println!("buffers of kinds are {}", if table.rows == other.rows { "the same" } else { "not the same" });
    println!("trace buffers are {}", if table.trace == other.trace { "the same" } else { "not the same" });
}

fn summary(Left { reply, step, written, .. }: &Left) -> String {
    let RunReply { number, place, steps, entries, stays, root, passed, crossed, .. } = reply;
    format!("number {number} place {place} steps {steps} entries {entries} stays {stays} root {root} passed {passed} crossed {crossed} kind {} domain {} rows {written}", step.kind, step.domain)
}

fn differences(one: &StateWords, other: &StateWords) -> String {
    let mut found = Vec::new();
    list(&mut found, "tail", &one.tails, &other.tails);
    list(&mut found, "next", &one.nexts, &other.nexts);
    list(&mut found, "status", &one.statuses, &other.statuses);
    list(&mut found, "row", &one.places.rows, &other.places.rows);
    list(&mut found, "domain", &one.places.domains, &other.places.domains);
    list(&mut found, "peer", &one.places.peers, &other.places.peers);
    list(&mut found, "word", &one.places.words, &other.places.words);
    list(&mut found, "ticket and grant", &[(one.ticket, one.grant)], &[(other.ticket, other.grant)]);
    list(&mut found, "entries", &one.counters.entries, &other.counters.entries);
    list(&mut found, "tenures", &one.counters.tenures, &other.counters.tenures);
    list(&mut found, "longest", &one.counters.longest, &other.counters.longest);
    found.join(", ")
}

fn list<T: PartialEq + std::fmt::Debug>(found: &mut Vec<String>, name: &str, one: &[T], other: &[T]) {
    let pairs = one.iter().zip(other).enumerate().filter(|(_, (one, other))| one != other);
    found.extend(pairs.map(|(number, (one, other))| format!("{name} {number}: {one:?} / {other:?}")));
}
