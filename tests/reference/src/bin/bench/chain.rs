//! The chain of a thread: microseconds per call, for the longest chain of a tree and for a thread that waits for nobody.

use crate::{draft, print_head, shapes, time, Shape, ROUNDS};
use reference::chain::{chain_words, ChainCall};
use reference::library;
use reference::opaque::opaque;
use reference::random::Random;
use reference::random_state::tree_words;
use reference::table::{run, State, Tree};
use reference::words::{StateWords, TreeWords};

/// Each thread in turn goes as far as it can. The first is inside, and each other thread waits for the one before it in a queue or for the ticket before its own.
fn crowded(tree: &Tree) -> State {
    let mut state = State::fresh();
    run(tree, &mut state, std::iter::repeat(0).take(steps_inside(tree)), &mut Vec::new());
    for thread in 1..tree.threads as u16 {
        run(tree, &mut state, std::iter::repeat(thread).take(30), &mut Vec::new());
    }
    state
}

/// How many steps thread 0 takes from fresh until it is inside.
fn steps_inside(tree: &Tree) -> usize {
    let mut trace = Vec::new();
    let enters = |&steps: &usize| {
        trace.clear();
        run(tree, &mut State::fresh(), std::iter::repeat(0).take(steps), &mut trace).entries > 0
    };
    (1..100).find(enters).expect("thread 0 enters")
}

/// Nanoseconds per call, the best of the rounds, and the length of the chain. In each round every program runs once.
fn costs(programs: &[ChainCall], tree: &TreeWords, state: &StateWords, thread: u16) -> (Vec<f64>, u32) {
    let mut buffer = vec![0; 256];
    let mut best = vec![f64::MAX; programs.len()];
    let length = chain_words(tree, state, thread, &mut buffer).2;
    for _ in 0..ROUNDS {
        for (call, cost) in programs.iter().zip(&mut best) {
            *cost = cost.min(time(|| assert_eq!(call(tree, opaque(state), thread, &mut buffer), (0, 0, length))));
        }
    }
    (best, length)
}

/// The thread with the longest chain.
fn longest(words: &TreeWords, state: &StateWords) -> u16 {
    let length = |&thread: &u16| chain_words(words, state, thread, &mut [0; 256]).2;
    (0..words.threads as u16).max_by_key(length).expect("a thread")
}

fn print_shape(programs: &[ChainCall], name: &str, shape: Shape) {
    let draft = draft(shape);
    let words = tree_words(&mut Random::new(1), &draft);
    let state = StateWords::of(&crowded(&draft.tree()));
    for thread in [0, longest(&words, &state)] {
        let (costs, length) = costs(programs, &words, &state, thread);
        print_head(name, shape);
        println!("  {length:>3} threads  {:>7.2} {:>7.2}  {:>5.2}", costs[0] / 1000.0, costs[1] / 1000.0, costs[1] / costs[0]);
    }
}

/// Prints the table. Prints nothing if the library lacks the call. No step is taken, so its ratios are kept apart from the others.
pub fn print() {
    let library = match library::chain() {
        Some(library) => library,
        None => return,
    };
    println!("chain of a thread, everybody waiting for thread 0: microseconds a call, of the program in Rust and the library; their ratio");
    let alone = [false, true].map(|ticket_root| Shape { domains: 1, threads: 256, ticket_root });
    for shape in shapes(false).into_iter().chain(shapes(true)).chain(alone) {
        print_shape(&[chain_words, library], "chain", shape);
    }
}
