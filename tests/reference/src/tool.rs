//! What the command's tables must contain, by the step table, in the form printed for a spreadsheet.

use crate::counters::Counters;
use crate::rate::{rate, PassingTimes};
use crate::refusals::{accept_entries, accept_tree, Refusal};
use crate::table::*;
use crate::waits::{run_waits, seen, Seen, ROW};
use crate::words::*;
use crate::{bounds, lock_file};

/// A lock file whose tree and schedule are accepted.
pub struct Accepted {
    pub tree: Tree,
    pub schedule: Vec<u16>,
}

pub fn accept(file: &[u8]) -> Result<Accepted, Refusal> {
    let (tree, bytes) = lock_file::read(file)?;
    accept_tree(&tree)?;
    let schedule: Vec<u16> = lock_file::entries(bytes).collect();
    accept_entries(&tree, schedule.iter().copied())?;
    Ok(Accepted { tree, schedule })
}

/// The run of a schedule from a fresh lock: its counts, the rows of its waits with the row of all threads last, and the attempts that had not
/// ended.
pub struct Waited {
    pub reply: RunReply,
    pub rows: Vec<[u64; ROW]>,
    pub under_way: Vec<Option<u64>>,
}

pub fn waited(tree: &Tree, schedule: &[u16]) -> Waited {
    let mut trace = vec![0; schedule.len()];
    let mut numbers = vec![0; ROW * (tree.threads + 1)];
    let fresh = State::fresh_at(tree, 0);
    let reply = run_waits(&TreeWords::of(tree), &StateWords::of(&fresh), schedule, &mut trace, &mut numbers).run();
    assert_eq!(reply.number, 0, "a run of what was accepted");
    let rows = numbers.chunks_exact(ROW).map(|row| row.try_into().expect("a row")).collect();
    let steps = seen(tree, &fresh, schedule);
    let under_way = (0..tree.threads).map(|thread| under_way(&steps, thread as u16)).collect();
    Waited { reply, rows, under_way }
}

/// The entries of the others since a thread's last attempt began, if it has not entered since.
fn under_way(steps: &[Seen], thread: u16) -> Option<u64> {
    let own = |step: &Seen| step.thread == thread;
    let from = steps.iter().rposition(|step| own(step) && step.begins)?;
    let meanwhile = &steps[from..];
    (!meanwhile.iter().any(|step| own(step) && step.enters)).then(|| meanwhile.iter().filter(|step| !own(step) && step.enters).count() as u64)
}

/// The threads and attempts that the waits leave out.
struct Missing {
    never_entered: usize,
    fewest_entries: u64,
    under_way: usize,
    longest_under_way: Option<u64>,
    comparable: bool,
}

impl Missing {
    fn of(run: &Waited) -> Missing {
        Missing::among(run, |_| true)
    }

    /// Only for some of the threads.
    fn among(run: &Waited, is_asked: impl Fn(usize) -> bool) -> Missing {
        let threads: Vec<usize> = (0..run.under_way.len()).filter(|&thread| is_asked(thread)).collect();
        let never_entered = threads.iter().filter(|&&thread| run.rows[thread][0] == 0).count();
        let longest_under_way = threads.iter().filter_map(|&thread| run.under_way[thread]).max();
        let largest = threads.iter().map(|&thread| run.rows[thread][2]).max().unwrap_or(0);
        Missing {
            never_entered,
            fewest_entries: threads.iter().map(|&thread| run.rows[thread][0]).min().unwrap_or(0),
            under_way: threads.iter().filter(|&&thread| run.under_way[thread].is_some()).count(),
            longest_under_way,
            comparable: never_entered == 0 && longest_under_way.map_or(true, |so_far| so_far <= largest),
        }
    }
}

/// The longest wait of each thread, as the call returns it.
fn longest_waits(tree: &Tree) -> Vec<u64> {
    let mut bounds = [0; THREAD_ROOM];
    assert_eq!(bounds::wait_bounds(&TreeWords::of(tree), &mut bounds).0, 0, "a tree that was accepted");
    bounds[..tree.threads].to_vec()
}

/// A number, or an empty field.
fn field(number: Option<u64>) -> String {
    number.map_or(String::new(), |number| number.to_string())
}

/// Numerator, denominator and decimal value of a mean, or empty fields.
fn mean_fields(numerator: u64, denominator: u64) -> String {
    if denominator == 0 {
        return ",,".to_string();
    }
    format!("{numerator},{denominator},{}", decimal(numerator, denominator))
}

/// The counters of the domains in the state after a run.
fn counters(run: &Waited) -> Counters {
    run.reply.state.state().expect("a state that a run reached").counters
}

/// The domains below the root, in the order of the tree's table.
pub fn tenures_table(accepted: &Accepted) -> String {
    let mut table = "domain,threshold,entries,tenures,longest tenure,fewest entries,never entered,under way,longest under way\n".to_string();
    push_tenures(&accepted.tree, &waited(&accepted.tree, &accepted.schedule), ROOT, &mut table);
    table
}

fn push_tenures(tree: &Tree, run: &Waited, domain: usize, table: &mut String) {
    for child in (1..tree.domains).filter(|&child| tree.parent(child) == domain) {
        let [entries, tenures, longest] = counters(run).of(child);
        let Missing { never_entered, fewest_entries, under_way, longest_under_way, .. } = Missing::among(run, |thread| is_under(tree, thread, child));
        let missing = format!("{fewest_entries},{never_entered},{under_way},{}", field(longest_under_way));
        *table += &format!("{child},{},{entries},{tenures},{longest},{missing}\n", tree.thresholds[child]);
        push_tenures(tree, run, child, table);
    }
}

/// Whether the domain is on the path from the thread's home to the root.
fn is_under(tree: &Tree, thread: usize, domain: usize) -> bool {
    std::iter::successors(Some(tree.home(thread)), |&above| (above != ROOT).then(|| tree.parent(above))).any(|above| above == domain)
}

/// Two digits after the decimal point, for a number that is not negative.
fn decimal(numerator: u64, denominator: u64) -> String {
    format!("{:.2}", if denominator == 0 { 0.0 } else { numerator as f64 / denominator as f64 })
}

fn share(part: u64, whole: u64) -> String {
    format!("{:.1}", if whole == 0 { 0.0 } else { 100.0 * part as f64 / whole as f64 })
}

pub fn waits_table(accepted: &Accepted) -> String {
    let run = waited(&accepted.tree, &accepted.schedule);
    let missing = Missing::of(&run);
    let bounds = longest_waits(&accepted.tree);
    let mut table = "thread,home,attempts,total wait,largest wait,mean wait numerator,mean wait denominator,mean wait,under way,longest possible wait,entered\n".to_string();
    for (thread, &[attempts, total, largest, numerator, denominator]) in run.rows.iter().enumerate() {
        let is_all = thread == accepted.tree.threads;
        let (name, home) = if is_all { ("all".to_string(), String::new()) } else { (thread.to_string(), accepted.tree.home(thread).to_string()) };
        let under_way = if is_all { missing.longest_under_way } else { run.under_way[thread] };
        let entered = if is_all { missing.never_entered == 0 } else { attempts > 0 };
        let mean = mean_fields(numerator, denominator);
        let possible = if is_all { bounds.iter().copied().max().unwrap_or(0) } else { bounds[thread] };
        table += &format!("{name},{home},{attempts},{total},{largest},{mean},{},{possible},{entered}\n", field(under_way));
    }
    table
}

/// The first three columns of the counts. The last column holds only words.
pub fn run_table(accepted: &Accepted) -> Vec<String> {
    let run = waited(&accepted.tree, &accepted.schedule);
    let RunReply { steps, entries, stays, root, passed, crossed, .. } = run.reply;
    let missing = Missing::of(&run);
    let line = |name: &str, part: u64, whole: u64| format!("{name},{part},{},", if whole == 0 { String::new() } else { share(part, whole) });
    vec![
        line("steps", steps as u64, 0),
        line("stays", stays as u64, steps as u64),
        line("entries", entries as u64, 0),
        line("root", root as u64, entries as u64),
        line("crossed", crossed as u64, entries as u64),
        line("passed", passed as u64, entries as u64),
        line("never entered", missing.never_entered as u64, accepted.tree.threads as u64),
        line("fewest entries", missing.fewest_entries, 0),
        line("under way", missing.under_way as u64, 0),
        line("longest under way", missing.longest_under_way.unwrap_or(0), 0),
    ]
}

/// What a sweep runs: one schedule for all rows, or one made for the tree of each row.
pub enum Swept<'a> {
    Turns(&'a [u16]),
    Busy { count: usize, seed: u64, work: u64 },
}

/// The rows of a sweep: for each threshold, all of these domains get it and the schedule is run.
pub fn sweep_rows(tree: &Tree, swept: &Swept, domains: &[usize], thresholds: &[u16], times: Option<PassingTimes>) -> Vec<String> {
    let row = |&threshold: &u16| {
        let mut tree = tree.clone();
        domains.iter().for_each(|&domain| tree.thresholds[domain] = threshold);
        let run = match *swept {
            Swept::Turns(turns) => waited(&tree, turns),
            Swept::Busy { count, seed, work } => waited(&tree, &busy(&tree, count, seed, work)),
        };
        assert!(!matches!(swept, Swept::Busy { .. }) || run.reply.stays == 0, "a stay among busy turns");
        let RunReply { entries, stays, root, passed, crossed, .. } = run.reply;
        let [_, _, largest, numerator, denominator] = run.rows[tree.threads];
        let mean = mean_fields(numerator, denominator);
        let Missing { never_entered, fewest_entries, under_way, longest_under_way, comparable } = Missing::of(&run);
        let longest = domains.iter().map(|&domain| counters(&run).longest[domain]).max().unwrap_or(0);
        let allowance = (1..tree.domains).filter(|&domain| tree.parent(domain) == ROOT).map(|domain| bounds::capped_allowance(&tree, domain)).max().unwrap_or(0);
        let missing = format!("{never_entered},{fewest_entries},{under_way},{}", field(longest_under_way));
        let timed = times.map_or(String::new(), |times| time_fields(&tree, times, &run.reply));
        let possible = longest_waits(&tree).into_iter().max().unwrap_or(0);
        format!("{threshold},{entries},{root},{crossed},{passed},{stays},{largest},{possible},{mean},{missing}{timed},{longest},{allowance},{comparable}")
    };
    thresholds.iter().map(row).collect()
}

/// The time per entry of a run, and the one from the rate. Each follows a comma, and is empty if there is none.
fn time_fields(tree: &Tree, times: PassingTimes, reply: &RunReply) -> String {
    let RunReply { entries, root, passed, crossed, .. } = *reply;
    let time = (times.p1 * passed as f64 + times.p2 * crossed as f64 + times.p3 * root as f64) / entries as f64;
    let time = if entries == 0 { String::new() } else { time.to_string() };
    let by_rate = thresholds_of_levels(tree).and_then(|thresholds| match thresholds[..] {
        [home] => rate(home, 1, times).ok(),
        [middle, home] => rate(home, middle, times).ok(),
        _ => None,
    });
    format!(",{time},{}", by_rate.map_or(String::new(), |rate| (1.0 / rate).to_string()))
}

/// The threshold of each level below the root, if each level has a single one and all homes are on the last level.
fn thresholds_of_levels(tree: &Tree) -> Option<Vec<u16>> {
    let level = |domain: usize| std::iter::successors(Some(domain), |&above| (above != ROOT).then(|| tree.parent(above))).count();
    let last = (0..tree.domains).map(level).max()?;
    let of_level = |wanted: usize| {
        let mut found: Vec<u16> = (1..tree.domains).filter(|&domain| level(domain) == wanted).map(|domain| tree.thresholds[domain]).collect();
        found.dedup();
        (found.len() == 1).then(|| found[0])
    };
    let all_on_last = (0..tree.threads).all(|thread| level(tree.home(thread)) == last);
    (2..=last).map(of_level).collect::<Option<Vec<u16>>>().filter(|_| all_on_last)
}

const ROWS: [&str; 14] = ["Idle", "Prep", "Swap", "Link", "Wait", "Inside", "Check", "Help", "Cas", "Linger", "Grant", "Draw", "Watch", "Raise"];

/// The domains, each after its parent and before the next domain of the parent's level. Each level below the root adds two spaces of indentation.
pub fn tree_rows(tree: &Tree) -> Vec<String> {
    let mut rows = Vec::new();
    push_domain(tree, ROOT, 1, &mut rows);
    rows
}

fn push_domain(tree: &Tree, domain: usize, level: usize, rows: &mut Vec<String>) {
    let threshold = tree.thresholds[domain];
    rows.push(match (domain, tree.ticket_root) {
        (ROOT, _) => format!("0,1,,,{},", home_wait(tree, ROOT)),
        _ => format!("{domain},{level},{threshold},{},{},", bounds::capped_allowance(tree, domain), home_wait(tree, domain)),
    });
    for child in (1..tree.domains).filter(|&child| tree.parent(child) == domain) {
        push_domain(tree, child, level + 1, rows);
    }
}

/// The longest wait of the threads whose home is a domain, or an empty field.
fn home_wait(tree: &Tree, domain: usize) -> String {
    field((0..tree.threads).find(|&thread| tree.home(thread) == domain).map(|thread| longest_waits(tree)[thread]))
}

/// One line for each step: turn, thread, domain and row at the front, the threads inside at the end, and the kind of the step.
pub fn step_lines(accepted: &Accepted) -> Vec<(String, Kind, String)> {
    let tree = &accepted.tree;
    let mut state = State::fresh_at(tree, 0);
    let mut line = |(turn, &thread): (usize, &u16)| {
        let at = thread as usize;
        let front = format!("{turn},{thread},{},{},", domain_of(tree, &state, at), ROWS[PlaceWords::of(state.places[at]).row as usize]);
        let kind = step(tree, &mut state, at);
        let inside = state.places.iter().position(|&place| place == Place::Inside);
        (front, kind, inside.map_or("nobody".to_string(), |thread| format!("thread {thread}")))
    };
    accepted.schedule.iter().enumerate().map(|step| line(step)).collect()
}

/// The generator for the schedules that the command makes: splitmix64.
struct Drawn(u64);

impl Drawn {
    fn below(&mut self, bound: u64) -> u64 {
        self.0 = self.0.wrapping_add(0x9E37_79B9_7F4A_7C15);
        let mixed = (self.0 ^ (self.0 >> 30)).wrapping_mul(0xBF58_476D_1CE4_E5B9);
        let mixed = (mixed ^ (mixed >> 27)).wrapping_mul(0x94D0_49BB_1331_11EB);
        let mixed = mixed ^ (mixed >> 31);
        (((mixed >> 32) as u128 * bound as u128) >> 32) as u64
    }
}

/// The schedule that the command makes for bursts:COUNT:SEED:LENGTH. For random:COUNT:SEED it is the one with LENGTH 1.
pub fn bursts(count: usize, seed: u64, length: u64, threads: usize) -> Vec<u16> {
    let mut drawn = Drawn(seed);
    let mut schedule = Vec::new();
    while schedule.len() < count {
        let thread = drawn.below(threads as u64) as u16;
        let turns = if length == 1 { 1 } else { 1 + drawn.below(length) };
        (0..turns.min((count - schedule.len()) as u64)).for_each(|_| schedule.push(thread));
    }
    schedule
}

/// The schedule that the command makes for busy:COUNT:SEED:WORK. Without WORK it is the one with WORK 0. Who can move is found by trying every thread.
pub fn busy(tree: &Tree, count: usize, seed: u64, work: u64) -> Vec<u16> {
    let mut drawn = Drawn(seed);
    let mut state = State::fresh_at(tree, 0);
    let mut pauses = vec![0u64; tree.threads]; // turns for which a thread is not drawn
    let mut schedule = Vec::new();
    while schedule.len() < count {
        let can_move = |thread: usize| step(tree, &mut state.clone(), thread) != Kind::Stay;
        let candidates: Vec<usize> = (0..tree.threads).filter(|&thread| pauses[thread] == 0 && can_move(thread)).collect();
        let passed = if candidates.is_empty() { *pauses.iter().min().expect("a thread") } else { 1 };
        pauses.iter_mut().for_each(|pause| *pause = pause.saturating_sub(passed));
        if candidates.is_empty() {
            continue;
        }
        let thread = candidates[drawn.below(candidates.len() as u64) as usize];
        step(tree, &mut state, thread);
        schedule.push(thread as u16);
        if work != 0 && state.places[thread] == Place::Idle {
            pauses[thread] = drawn.below(2 * work + 1);
        }
    }
    schedule
}

/// The cost of an entry on the busy schedule that a choice runs, if no thread can wait for more than the limit. The thresholds are those of the
/// levels below the root, and the times are 0.05, 0.2 and 1.
pub fn cost_within(tree: &Tree, thresholds: &[u16], limit: u64) -> Option<f64> {
    let level = |domain: usize| std::iter::successors(Some(domain), |&above| (above != ROOT).then(|| tree.parent(above))).count();
    let mut tree = tree.clone();
    (1..tree.domains).for_each(|domain| tree.thresholds[domain] = thresholds[level(domain) - 2]);
    if longest_waits(&tree).into_iter().max()? > limit {
        return None;
    }
    let RunReply { entries, root, passed, crossed, .. } = waited(&tree, &busy(&tree, 3000, 1, 0)).reply;
    Some((0.05 * passed as f64 + 0.2 * crossed as f64 + root as f64) / entries as f64)
}
