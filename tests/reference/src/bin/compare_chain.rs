//! Compares the library's chain with the one in Rust, on states of a caller. Also tests, on states reached from fresh, what the document says of their chains.
//! Without the library it only does the second part and counts what the cases cover.

use reference::chain::{chain, chain_words, Broken, ChainAnswer, ChainCall};
use reference::counters::MOST_COUNTED;
use reference::library;
use reference::met::Met;
use reference::options::{conclude, Options};
use reference::random::Random;
use reference::random_file::{broken_draft, valid_draft};
use reference::random_state::{any_well_formed, random_counters, random_start, reached, spoil, tree_words, waiting};
use reference::refusals::accept_tree;
use reference::schedules::{schedule, STYLES};
use reference::table::*;
use reference::words::*;
use std::process::exit;

const CANARY: usize = 16;
const REFUSALS: [usize; 11] = [4, 5, 6, 7, 8, 9, 16, 10, 12, 20, 21];

/// The input of one call. The chain buffer is between canaries.
struct Case {
    tree: TreeWords,
    state: StateWords,
    from_fresh: bool,
    thread: u16,
    buffer: Vec<u16>,
}

/// What the cases covered, for each kind of root: reasons for 21, chains of three or more threads in reached states and in others, and chains in states with a counter of 2^63.
/// When the steps of a waiting thread are tested: links from Wait, Linger and Watch, and moves of other threads.
#[derive(Default)]
struct ChainMet {
    nobody: [u64; 2],
    several: [u64; 2],
    comes_back: [u64; 2],
    long_reached: [u64; 2],
    long_other: [u64; 2],
    waits: [u64; 2],
    lingers: [u64; 2],
    watches: [u64; 2],
    moved: [u64; 2],
    most_counted: [u64; 2],
}

impl ChainMet {
    fn print(&self) {
        println!("at queue and ticket roots, 21: nobody {:?}, several {:?}, comes back {:?}", self.nobody, self.several, self.comes_back);
        println!("chains of three or more: reached {:?}, other states {:?}", self.long_reached, self.long_other);
        println!(
            "links tried: from Wait {:?}, Linger {:?}, Watch {:?}; moves of others meanwhile {:?}",
            self.waits, self.lingers, self.watches, self.moved
        );
        println!("chains of states with a counter of 2^63 {:?}", self.most_counted);
    }

    /// Nobody watches at a queue root.
    fn complete(&self) -> bool {
        let chains = [self.nobody, self.several, self.comes_back, self.long_reached, self.long_other, self.most_counted];
        let links = [self.waits, self.lingers, self.moved];
        chains.iter().chain(&links).flatten().all(|&times| times > 0) && self.watches[1] > 0
    }
}

/// A state with some words of another. It is usually well formed if both are.
fn mixed(random: &mut Random, tree: &Tree, mut state: State, other: &State) -> State {
    for _ in 0..random.between(1, 4) {
        let thread = random.below(tree.threads);
        let domain = random.below(tree.domains);
        let record = random.pick(&[thread, domain_record(domain)]);
        match random.below(4) {
            0 => state.nexts[record] = other.nexts[record],
            1 => state.statuses[record] = other.statuses[record],
            _ => state.places[thread] = other.places[thread],
        }
    }
    state
}

/// A reached state followed by random steps until a thread lingers, if one does soon.
fn until_lingering(random: &mut Random, tree: &Tree) -> State {
    let mut state = reached(random, tree);
    for _ in 0..400 {
        step(tree, &mut state, random.below(tree.threads));
        if (0..tree.threads).any(|thread| matches!(state.places[thread], Place::Linger(_))) {
            return state;
        }
    }
    state
}

/// The state, and whether its words were reached from fresh.
fn case_state(random: &mut Random, words: &TreeWords) -> (StateWords, bool) {
    let tree = words.tree();
    if accept_tree(&tree).is_err() {
        let mut state = StateWords::fresh();
        state.places.rows[255] = random.pick(&[0, 11, 14]);
        state.ticket = random_start(random);
        return (state, false);
    }
    let from_fresh = random.below(3) == 0;
    let mut state = match random.below(4) {
        0 if from_fresh => until_lingering(random, &tree),
        _ if from_fresh => reached(random, &tree),
        0 => any_well_formed(random, &tree),
        1 | 2 => waiting(random, &tree),
        _ => {
            let (one, other) = (reached(random, &tree), any_well_formed(random, &tree));
            mixed(random, &tree, one, &other)
        }
    };
    // a chain takes no step, so counters at 2^63 do not change it
    if random.one_in(4) {
        state.counters = random_counters(random, &tree);
    }
    let mut state = StateWords::of(&state);
    if !from_fresh && random.one_in(8) {
        spoil(random, &tree, &mut state);
    }
    (state, from_fresh)
}

/// Usually a thread in a place that can stay, sometimes a thread that is not in the tree.
fn case_thread(random: &mut Random, tree: &TreeWords, state: &StateWords) -> u16 {
    if random.one_in(20) {
        return random.pick(&[tree.threads as u16, 256, 65_535]);
    }
    let threads = tree.threads.clamp(1, 256) as usize;
    let rows: &[u8] = if random.one_in(3) { &[9] } else { &[4, 9, 12] };
    let staying: Vec<usize> = (0..threads).filter(|&thread| rows.contains(&state.places.rows[thread])).collect();
    if staying.is_empty() || random.one_in(6) {
        return random.below(threads) as u16;
    }
    random.pick(&staying) as u16
}

fn random_case(random: &mut Random) -> Case {
    let draft = if random.one_in(8) { broken_draft(random) } else { valid_draft(random) };
    let tree = tree_words(random, &draft);
    let (state, from_fresh) = case_state(random, &tree);
    let thread = case_thread(random, &tree, &state);
    let threads = tree.threads.min(300) as usize;
    let room = match random.below(10) {
        0 => threads.saturating_sub(random.between(1, 3)),
        1..=6 => threads,
        _ => threads + random.below(20),
    };
    let buffer = (0..CANARY + room + CANARY).map(|_| random.word() as u16).collect();
    Case { tree, state, from_fresh, thread, buffer }
}

fn make(call: ChainCall, case: &Case) -> (ChainAnswer, Vec<u16>) {
    let mut buffer = case.buffer.clone();
    let end = buffer.len() - CANARY;
    let answer = call(&case.tree, &case.state, case.thread, &mut buffer[CANARY..end]);
    (answer, buffer)
}

/// A continuation in some style without the thread ahead. The thread after it takes turns often.
fn continuation(random: &mut Random, tree: &Tree, thread: u16, ahead: u16) -> Vec<u16> {
    let (style, length) = (random.pick(&STYLES), random.between(1, 120));
    let mut entries = schedule(random, tree, style, length);
    for entry in &mut entries {
        if *entry == ahead || random.one_in(6) {
            *entry = thread;
        }
    }
    entries
}

/// While the thread ahead takes no step, the next step of the thread after it is a stay: before, between and after the entries. Returns how many entries were moves, or none if this fails.
fn only_stays(random: &mut Random, tree: &Tree, state: &State, thread: u16, ahead: u16) -> Option<u64> {
    let mut state = state.clone();
    let mut moved = 0;
    for entry in continuation(random, tree, thread, ahead) {
        if step(tree, &mut state, thread as usize) != Kind::Stay {
            return None;
        }
        moved += (step(tree, &mut state, entry as usize) != Kind::Stay) as u64;
    }
    (step(tree, &mut state, thread as usize) == Kind::Stay).then_some(moved)
}

/// Tests what the document says of the chains in a state reached from fresh, on a random continuation for each link.
fn try_links(random: &mut Random, case: &Case, found: &[u16], met: &mut ChainMet) -> Result<(), String> {
    let (tree, state) = (case.tree.tree(), case.state.state().expect("reached"));
    let root = tree.ticket_root as usize;
    let mut once = found.to_vec();
    once.sort_unstable();
    once.dedup();
    if once.len() != found.len() || found[0] != case.thread {
        return Err("a thread is twice on it, or the thread is not its first".to_string());
    }
    if step(&tree, &mut state.clone(), found[found.len() - 1] as usize) == Kind::Stay {
        return Err("its last thread stays".to_string());
    }
    for link in found.windows(2) {
        match state.places[link[0] as usize] {
            Place::Wait(_) => met.waits[root] += 1,
            Place::Linger(_) => met.lingers[root] += 1,
            _ => met.watches[root] += 1,
        }
        match only_stays(random, &tree, &state, link[0], link[1]) {
            Some(moved) => met.moved[root] += moved,
            None => return Err(format!("thread {} moves, while thread {} took no step", link[0], link[1])),
        }
    }
    Ok(())
}

/// Counts why 21 refuses, by the definition alone.
fn count_broken(case: &Case, met: &mut ChainMet) {
    let (tree, state) = (case.tree.tree(), case.state.state().expect("well formed"));
    let root = tree.ticket_root as usize;
    match chain(&tree, &state, case.thread) {
        Err(Broken::Nobody) => met.nobody[root] += 1,
        Err(Broken::Several) => met.several[root] += 1,
        Err(Broken::ComesBack) => met.comes_back[root] += 1,
        Ok(_) => unreachable!("refused by 21"),
    }
}

fn count_accepted(case: &Case, length: u32, met: &mut ChainMet) {
    let root = (case.tree.ticket_root != 0) as usize;
    let long = if case.from_fresh { &mut met.long_reached } else { &mut met.long_other };
    long[root] += (length >= 3) as u64;
    met.most_counted[root] += case.state.counters.all().any(|count| count == MOST_COUNTED) as u64;
}

fn fail(number: usize, case: &Case, text: String) -> ! {
    println!("case {number}: {text}");
    let (domains, threads) = ((case.tree.domains as usize).min(64), (case.tree.threads as usize).min(256));
    println!("{} domains, parents {:?}, ticket root {}", case.tree.domains, &case.tree.parents[..domains], case.tree.ticket_root);
    println!(
        "{} threads, homes {:?}, thread {}, room {}",
        case.tree.threads,
        &case.tree.homes[..threads],
        case.thread,
        case.buffer.len() - 2 * CANARY
    );
    println!("places {:?}", (0..threads).map(|thread| case.state.places.get(thread)).collect::<Vec<_>>());
    println!("nexts {:?}, statuses {:?}, ticket {}, grant {}", case.state.nexts, case.state.statuses, case.state.ticket, case.state.grant);
    exit(1)
}

fn main() {
    let options = Options::read(100_000, 1_000_000);
    let library = library::chain();
    let subject =
        if library.is_some() { "the library's chain against the one in Rust" } else { "no library with these calls named, cases only counted" };
    println!("{subject}: {} cases, seed {}", options.count, options.seed);
    let mut random = Random::new(options.seed);
    let mut met = Met::new(&REFUSALS);
    let mut chain_met = ChainMet::default();
    for number in 0..options.count {
        let case = random_case(&mut random);
        let (answer, buffer) = make(chain_words, &case);
        if let Some((other, other_buffer)) = library.map(|call| make(call, &case)) {
            if other != answer || other_buffer != buffer {
                fail(
                    number,
                    &case,
                    format!("in Rust {answer:?}, library {other:?}, buffers {}", if buffer == other_buffer { "the same" } else { "not the same" }),
                );
            }
        }
        met.count(answer.0);
        match answer.0 {
            0 => count_accepted(&case, answer.2, &mut chain_met),
            21 if case.from_fresh => fail(number, &case, "21 for a state reached from fresh".to_string()),
            21 => count_broken(&case, &mut chain_met),
            _ => (),
        }
        if answer.0 == 0 && case.from_fresh {
            let found = &buffer[CANARY..CANARY + answer.2 as usize];
            if let Err(text) = try_links(&mut random, &case, found, &mut chain_met) {
                fail(number, &case, format!("chain {found:?}: {text}"));
            }
        }
    }
    met.print();
    chain_met.print();
    conclude(met.complete() && chain_met.complete(), library.is_some(), &["HMCS_LIBRARY", "HMCS_CALLS"]);
}
