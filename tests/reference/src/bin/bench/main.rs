//! The cost of the library's calls compared with the step table's: four schedules and three trees, each with a queue root and with a ticket root.
//! The last line is the worst ratio for queue roots, and the line before it the worst for ticket roots.

mod bounds;
mod calls;
mod chain;
mod files;
mod journals;
mod kinds;
mod many;
mod named_steps;
mod texts;
mod writing;
mod waits;

use reference::draft::Draft;
use reference::random::Random;
use reference::schedules::{schedule, Style};
use std::time::Instant;

const ROUNDS: usize = 15;
const CALLS: usize = 20;
const SCHEDULES: [(&str, Style); 4] = [("random", Style::Anybody), ("few busy", Style::Few), ("bursts", Style::Bursts), ("one thread", Style::One)];
const SIZES: [(usize, usize); 3] = [(3, 4), (15, 32), (64, 256)];

/// A tree of the bench: domains, threads, and the kind of root.
#[derive(Clone, Copy)]
struct Shape {
    domains: usize,
    threads: usize,
    ticket_root: bool,
}

fn shapes(ticket_root: bool) -> [Shape; 3] {
    SIZES.map(|(domains, threads)| Shape { domains, threads, ticket_root })
}

/// The worst ratio at each kind of root, or nothing if no library was measured.
#[derive(Default)]
struct Worst {
    queue: Vec<f64>,
    ticket: Vec<f64>,
}

impl Worst {
    fn add(&mut self, shape: Shape, ratios: Vec<f64>) {
        if shape.ticket_root { &mut self.ticket } else { &mut self.queue }.extend(ratios);
    }

    fn print(self) {
        for (name, ratios) in [("ratio of ticket roots", self.ticket), ("ratio", self.queue)] {
            match ratios.into_iter().reduce(f64::max) {
                Some(ratio) => println!("{name} {ratio:.2}"),
                None => println!("{name} none, no library named"),
            }
        }
    }
}

/// A binary tree. Six levels have 63 domains, so the last domain of a full tree has the root as its parent.
fn parent(domain: usize) -> u8 {
    match domain {
        63 => 0,
        _ => (domain.saturating_sub(1) / 2) as u8,
    }
}

/// Domains as a binary tree, with the threads spread over its leaves.
fn draft(Shape { domains, threads, ticket_root }: Shape) -> Draft {
    let parents: Vec<u8> = (0..domains).map(parent).collect();
    let leaves: Vec<u8> = (0..domains as u8).filter(|domain| !parents[1..].contains(domain)).collect();
    Draft {
        domains: domains as u8,
        threads: threads as u16,
        thresholds: vec![4; domains],
        homes: (0..threads).map(|thread| leaves[thread % leaves.len()]).collect(),
        parents,
        schedule: Vec::new(),
        ticket_root,
    }
}

fn draft_with_schedule(shape: Shape, style: Style, entries: usize) -> Draft {
    let mut draft = draft(shape);
    draft.schedule = schedule(&mut Random::new(1), &draft.tree(), style, entries);
    draft
}

/// Nanoseconds of one call.
fn time(mut call: impl FnMut()) -> f64 {
    let start = Instant::now();
    for _ in 0..CALLS {
        call();
    }
    start.elapsed().as_nanos() as f64 / CALLS as f64
}

fn print_head(name: &str, Shape { domains, threads, ticket_root }: Shape) {
    print!("{:<18} {domains:>7} {threads:>7}", if ticket_root { format!("{name}, ticket") } else { name.to_string() });
}

/// Prints one line of a table, for the step table and, if it was measured, the library, with the ratio of each column. Returns the ratios.
fn print_line(name: &str, shape: Shape, costs: &[[f64; 2]]) -> Vec<f64> {
    print_head(name, shape);
    for cost in costs {
        print!("  {:>9.2} {:>7.2}", cost[0], cost[1]);
    }
    let ratios: Vec<f64> = costs.get(1).map_or(Vec::new(), |library| (0..2).map(|column| library[column] / costs[0][column]).collect());
    for ratio in &ratios {
        print!("  {ratio:>5.2}");
    }
    println!();
    ratios
}

fn main() {
    let numbers: Vec<usize> = std::env::args().skip(1).map(|word| word.parse().expect("a number")).collect();
    if let [library, schedule, tree, times] = numbers[..] {
        files::repeat(library != 0, schedule, tree, times);
        return;
    }
    println!("best of {ROUNDS} rounds; buffers are not cleared between calls");
    let mut worst = Worst::default();
    files::print(&mut worst);
    calls::print(&mut worst);
    many::print(&mut worst);
    journals::print(&mut worst);
    waits::print(&mut worst);
    kinds::print(&mut worst);
    named_steps::print(&mut worst);
    chain::print();
    texts::print();
    writing::print();
    bounds::print();
    worst.print();
}
