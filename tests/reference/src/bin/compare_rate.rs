//! Compares the library's rate with the one written from document 02, bit for bit: every pair of edge thresholds with every three edge times, and
//! random inputs. Without the library it only counts what the inputs cover.

use reference::library;
use reference::met::Met;
use reference::options::{conclude, Options};
use reference::random::Random;
use reference::rate::{reply, same, PassingTimes, RateCall, RateReply};
use std::process::exit;

const LEAST: f64 = 1.0 / 1024.0;
const MOST: f64 = 1_048_576.0;
const THRESHOLDS: [u16; 5] = [0, 1, 2, 255, 65_535];

/// Both ends of the range with the floats next to them, others within the range, and numbers outside it.
fn edge_times() -> Vec<f64> {
    let beside = |end: f64| [-1, 0, 1].map(|step| f64::from_bits((end.to_bits() as i64 + step) as u64));
    let ends = [LEAST, MOST].into_iter().flat_map(beside);
    let within = [1.0, 0.1, 1.0 / 3.0, 1000.0];
    let outside = [0.0, -0.0, -1.0, -LEAST, f64::INFINITY, f64::NEG_INFINITY, f64::NAN, -f64::NAN, f64::from_bits(1), f64::MIN_POSITIVE, f64::MAX];
    ends.chain(within).chain(outside).collect()
}

fn random_threshold(random: &mut Random) -> u16 {
    match random.below(4) {
        0 => random.pick(&THRESHOLDS),
        1 => random.between(1, 300) as u16,
        2 => random.between(65_000, 65_535) as u16,
        _ => random.below(65_536) as u16,
    }
}

/// Usually within the range, with each power of two equally likely. Sometimes an edge, sometimes any bits.
fn random_time(random: &mut Random, edges: &[f64]) -> f64 {
    match random.below(40) {
        0 => f64::from_bits(random.word()),
        1 => random.pick(edges),
        _ => f64::from_bits((random.between(1023 - 10, 1023 + 19) as u64) << 52 | random.word() >> 12),
    }
}

/// The number of the answer. The library's answer must be equal.
fn compare(library: Option<RateCall>, h1: u16, h2: u16, times: PassingTimes) -> u32 {
    let own = reply(h1, h2, times);
    if let Some(other) = library.map(|call| call(h1, h2, times)).filter(|&other| !same(own, other)) {
        println!("thresholds {h1} and {h2}, {times:?} differ");
        report("document 02", own);
        report("library", other);
        exit(1);
    }
    own.number
}

fn report(name: &str, RateReply { number, place, rate }: RateReply) {
    println!("{name}: number {number} place {place} rate {rate:?}, bits {:#018x}", rate.to_bits());
}

fn main() {
    let options = Options::read(1_000_000, 20_000_000);
    let library = library::rate();
    let subject = if library.is_some() { "the library's rate against document 02" } else { "no library with a rate named, inputs only counted" };
    let edges = edge_times();
    println!("{subject}: {} edge inputs, {} random ones, seed {}", THRESHOLDS.len().pow(2) * edges.len().pow(3), options.count, options.seed);
    let mut met = Met::new(&[8, 24]);
    for (h1, h2) in THRESHOLDS.iter().flat_map(|&h1| THRESHOLDS.map(|h2| (h1, h2))) {
        for (p1, p2) in edges.iter().flat_map(|&p1| edges.iter().map(move |&p2| (p1, p2))) {
            edges.iter().for_each(|&p3| met.count(compare(library, h1, h2, PassingTimes { p1, p2, p3 })));
        }
    }
    let mut random = Random::new(options.seed);
    for _ in 0..options.count {
        let (h1, h2) = (random_threshold(&mut random), random_threshold(&mut random));
        let [p1, p2, p3] = [(); 3].map(|()| random_time(&mut random, &edges));
        met.count(compare(library, h1, h2, PassingTimes { p1, p2, p3 }));
    }
    met.print();
    conclude(met.complete(), library.is_some(), &["HMCS_LIBRARY", "HMCS_CALLS"]);
}
