//! Random schedules for a tree: of all threads, of a few, in bursts, of one thread, or avoiding stays.

use crate::random::Random;
use crate::table::*;

#[derive(Clone, Copy, Debug)]
pub enum Style {
    Anybody,
    Few,
    Bursts,
    One,
    Moving,
}

pub const STYLES: [Style; 5] = [Style::Anybody, Style::Few, Style::Bursts, Style::One, Style::Moving];

/// A schedule of the given length. The tree must be accepted.
pub fn schedule(random: &mut Random, tree: &Tree, style: Style, length: usize) -> Vec<u16> {
    let threads = tree.threads;
    match style {
        Style::Anybody => (0..length).map(|_| random.below(threads) as u16).collect(),
        Style::Few => few(random, threads, length),
        Style::Bursts => bursts(random, threads, length),
        Style::One => vec![random.below(threads) as u16; length],
        Style::Moving => moving(random, tree, length),
    }
}

fn few(random: &mut Random, threads: usize, length: usize) -> Vec<u16> {
    let busy: Vec<u16> = (0..random.between(2, 5)).map(|_| random.below(threads) as u16).collect();
    (0..length).map(|_| random.pick(&busy)).collect()
}

fn bursts(random: &mut Random, threads: usize, length: usize) -> Vec<u16> {
    let mut schedule = Vec::with_capacity(length);
    while schedule.len() < length {
        let thread = random.below(threads) as u16;
        let burst = random.between(1, 40).min(length - schedule.len());
        schedule.extend(std::iter::repeat(thread).take(burst));
    }
    schedule
}

/// A stay changes nothing, so another thread can be tried instead.
fn moving(random: &mut Random, tree: &Tree, length: usize) -> Vec<u16> {
    let mut state = State::fresh();
    let mut schedule = Vec::with_capacity(length);
    let mut tries = 0;
    while schedule.len() < length {
        let thread = random.below(tree.threads);
        tries += 1;
        if step(tree, &mut state, thread) != Kind::Stay || tries > 8 {
            schedule.push(thread as u16);
            tries = 0;
        }
    }
    schedule
}
