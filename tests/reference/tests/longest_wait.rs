//! The longest wait against the step table, on random small trees with both kinds of root. The entries in line during every attempt are at most W, for any schedule. If every
//! entry is prompt, all entries of others are at most W. Many threads do wait that long.

use reference::bounds::wait_bounds;
use reference::chain::chain;
use reference::draft::{random_draft, Size};
use reference::random::Random;
use reference::refusals::accept_tree;
use reference::table::*;
use reference::tool::busy;
use reference::words::TreeWords;

/// Up to eight threads and four levels, with thresholds 1 to 4.
fn small_tree(random: &mut Random) -> Option<Tree> {
    let size = Size { domains: random.between(1, 6), threads: random.between(1, 8) };
    let mut tree = random_draft(random, size).tree();
    (1..tree.domains).for_each(|domain| tree.thresholds[domain] = random.between(1, 4) as u16);
    let level = |domain: usize| std::iter::successors(Some(domain), |&above| (above != ROOT).then(|| tree.parent(above))).count();
    let small = tree.threads <= 8 && (0..tree.domains).all(|domain| level(domain) <= 4);
    (small && accept_tree(&tree).is_ok()).then_some(tree)
}

/// What an attempt under way has waited for: entries in line, all entries of others, and whether all of those were prompt.
#[derive(Clone, Copy)]
struct Attempt {
    in_line: u64,
    entries: u64,
    prompt: bool,
}

/// A run and its attempts under way. For each thread, the most entries in line, and the longest wait with only prompt entries.
struct Waited<'a> {
    tree: &'a Tree,
    state: State,
    under_way: Vec<Option<Attempt>>,
    in_line: Vec<u64>,
    prompt: Vec<u64>,
}

impl Waited<'_> {
    fn new(tree: &Tree, start: u16) -> Waited<'_> {
        let none = vec![0; tree.threads];
        Waited { tree, state: State::fresh_at(tree, start), under_way: vec![None; tree.threads], in_line: none.clone(), prompt: none }
    }

    fn kind(&self, thread: usize) -> Kind {
        step(self.tree, &mut self.state.clone(), thread)
    }

    fn can_move(&self, thread: usize) -> bool {
        self.kind(thread) != Kind::Stay
    }

    fn others(&self, thread: usize) -> impl Iterator<Item = usize> {
        (0..self.tree.threads).filter(move |&other| other != thread)
    }

    /// Whether, just before an entry, every other thread is Idle or can only stay.
    fn is_prompt(&self, thread: usize) -> bool {
        self.others(thread).all(|other| self.state.places[other] == Place::Idle || !self.can_move(other))
    }

    /// Called before a thread enters: every other attempt waits for this entry.
    fn count_entry(&mut self, thread: usize) {
        let prompt = self.is_prompt(thread);
        for other in self.others(thread) {
            let Some(mut attempt) = self.under_way[other] else { continue };
            let line = chain(self.tree, &self.state, other as u16).expect("a chain in a state reached from fresh");
            attempt.in_line += (line.last() == Some(&(thread as u16))) as u64;
            attempt.entries += 1;
            attempt.prompt &= prompt;
            self.under_way[other] = Some(attempt);
            self.in_line[other] = self.in_line[other].max(attempt.in_line);
            if attempt.prompt {
                assert_eq!(attempt.in_line, attempt.entries, "a prompt entry is in line");
                self.prompt[other] = self.prompt[other].max(attempt.entries);
            }
        }
    }

    /// An attempt begins with the Swap at home, or with the draw if home is a ticket root. It ends with the entry.
    fn turn(&mut self, thread: usize) {
        let home = self.tree.home(thread);
        let begins = match self.state.places[thread] {
            Place::Idle | Place::Draw => self.tree.is_ticket(home),
            Place::Swap(domain) => domain as usize == home,
            _ => false,
        };
        let entry = self.kind(thread).is_entry();
        if entry {
            self.count_entry(thread);
            self.under_way[thread] = None;
        } else if begins {
            self.under_way[thread] = Some(Attempt { in_line: 0, entries: 0, prompt: true });
        }
        step(self.tree, &mut self.state, thread);
    }

    /// A random turn of a thread that can move. A thread enters only if the entry is prompt, or if no other thread can move.
    fn prompt_turn(&mut self, random: &mut Random) {
        let moves: Vec<usize> = (0..self.tree.threads).filter(|&thread| self.can_move(thread)).collect();
        let fit: Vec<usize> = moves.iter().copied().filter(|&thread| !self.kind(thread).is_entry() || self.is_prompt(thread)).collect();
        let (idle, under_way): (Vec<usize>, Vec<usize>) = fit.iter().partition(|&&thread| self.state.places[thread] == Place::Idle);
        let begin = under_way.is_empty() || (!idle.is_empty() && random.one_in(3));
        let candidates = [if begin { &idle } else { &under_way }, &fit, &moves].into_iter().find(|some| !some.is_empty());
        self.turn(random.pick(candidates.expect("somebody can move")));
    }
}

fn longest_waits(tree: &Tree) -> Vec<u64> {
    let mut waits = [0; THREAD_ROOM];
    assert_eq!(wait_bounds(&TreeWords::of(tree), &mut waits), (0, 0));
    waits[..tree.threads].to_vec()
}

fn run_all<'a>(tree: &'a Tree, start: u16, schedule: &[u16]) -> Waited<'a> {
    let mut waited = Waited::new(tree, start);
    schedule.iter().for_each(|&thread| waited.turn(thread as usize));
    waited
}

#[test]
fn attempts_wait_at_most_so_long() {
    let mut random = Random::new(1);
    let (mut trees, mut met, mut met_promptly) = (0, 0, 0);
    while trees < 150 {
        let Some(tree) = small_tree(&mut random) else { continue };
        trees += 1;
        let bounds = longest_waits(&tree);
        let start = random.pick(&[0, 65_535]);
        let turns: Vec<u16> = (0..2000).map(|_| random.below(tree.threads) as u16).collect();
        let by_chance = run_all(&tree, start, &turns);
        let when_busy = run_all(&tree, 0, &busy(&tree, 2000, random.word(), random.pick(&[0, 8])));
        let mut promptly = Waited::new(&tree, start);
        (0..2000).for_each(|_| promptly.prompt_turn(&mut random));
        for waited in [by_chance, when_busy, promptly] {
            for (thread, &bound) in bounds.iter().enumerate() {
                let (in_line, prompt) = (waited.in_line[thread], waited.prompt[thread]);
                assert!(in_line.max(prompt) <= bound, "thread {thread} waits for {in_line} in line, {prompt} promptly, bound {bound}: {tree:?}");
                met += (bound > 0 && in_line == bound) as usize;
                met_promptly += (bound > 0 && prompt == bound) as usize;
            }
        }
    }
    assert!(met >= 200 && met_promptly >= 50, "so many threads wait as long as they can: {met}, for prompt entries alone {met_promptly}");
}
