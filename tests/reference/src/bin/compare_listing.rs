//! Compares the step table with Listing 1 on random trees and schedules. At a ticket root, the ticket lock replaces Listing 1's second template.

use reference::draft::{random_draft, Draft, Size};
use reference::options::Options;
use reference::random::Random;
use reference::random_state::random_start;
use reference::refusals::{levels, well_formed};
use reference::schedules::{schedule, STYLES};
use reference::side_by_side::{compare, Coverage, Difference};
use reference::table::{Tree, DEEPEST_LEVEL};
use std::process::exit;

fn main() {
    let options = Options::read(40_000, 400_000);
    println!("step table against Listing 1: {} schedules, seed {}", options.count, options.seed);
    let mut random = Random::new(options.seed);
    let mut roots = [Seen::new("queue root"), Seen::new("ticket root")];
    for number in 0..options.count {
        let (draft, start) = (random_case(&mut random), random_start(&mut random));
        let seen = &mut roots[usize::from(draft.ticket_root)];
        seen.depths[depth(&draft.tree()) - 1] += 1;
        if let Err(difference) = compare_one(&draft, start, &mut seen.coverage) {
            report(number, &draft, start, &difference);
            exit(1);
        }
    }
    roots.iter().for_each(Seen::print);
    if roots.iter().zip([false, true]).any(|(seen, ticket_root)| !seen.coverage.complete(ticket_root) || seen.depths.contains(&0)) {
        println!("a way through the listing was never taken or is not among those expected, no grant came round, or no tree was so deep");
        exit(1);
    }
    println!("no difference");
}

/// What the schedules at one kind of root covered.
struct Seen {
    name: &'static str,
    depths: [u64; DEEPEST_LEVEL as usize],
    coverage: Coverage,
}

impl Seen {
    fn new(name: &'static str) -> Seen {
        Seen { name, depths: [0; DEEPEST_LEVEL as usize], coverage: Coverage::default() }
    }

    fn print(&self) {
        println!("{}: schedules on trees of 1 to 6 levels: {:?}", self.name, self.depths);
        print_coverage(&self.coverage);
    }
}

/// The level of the deepest home.
fn depth(tree: &Tree) -> usize {
    let levels = levels(tree);
    (0..tree.threads).map(|thread| levels[tree.home(thread)] as usize).max().unwrap_or(1)
}

/// Usually small. Sometimes many threads, or a long schedule.
fn random_case(random: &mut Random) -> Draft {
    let many = random.one_in(200);
    let size = Size { domains: random.pick(&[1, 3, 8, 8, 16, 64]), threads: if many { 256 } else { random.pick(&[2, 4, 4, 8]) } };
    let mut draft = random_draft(random, size);
    let length = if random.one_in(10) { random.between(0, 1000) } else { random.between(0, 120) };
    let style = random.pick(&STYLES);
    draft.schedule = schedule(random, &draft.tree(), style, length);
    draft
}

/// The state after the run must also be well formed: unused slots keep the fresh words.
fn compare_one(draft: &Draft, start: u16, coverage: &mut Coverage) -> Result<(), Difference> {
    let tree = draft.tree();
    let state = compare(&tree, start, &draft.schedule, coverage)?;
    if well_formed(&tree, &state) {
        Ok(())
    } else {
        Err(Difference { position: draft.schedule.len(), text: "the state is not well formed".to_string() })
    }
}

fn report(number: usize, draft: &Draft, start: u16, difference: &Difference) {
    println!("schedule {number} differs after entry {}: {}", difference.position, difference.text);
    println!("{}", if draft.ticket_root { format!("ticket root, start {start}") } else { "queue root".to_string() });
    println!("parents {:?}", draft.parents);
    println!("thresholds {:?}", draft.thresholds);
    println!("homes {:?}", draft.homes);
    println!("schedule {:?}", draft.schedule);
}

fn print_coverage(coverage: &Coverage) {
    println!("{} entries; how often a thread went from line to line (0 is the critical section, 90 to 92 the ticket lock):", coverage.entries);
    let ways: Vec<String> = coverage.ways.iter().map(|((from, to), times)| format!("{from} to {to}: {times}")).collect();
    println!("{}", ways.join(", "));
    println!("a threshold kept a successor waiting: {}; a grant went from 65,535 to 0: {}", coverage.thresholds_reached, coverage.grants_to_zero);
}
