//! What a comparison has covered in given states: each reason for 10 that a kind of root or a counter adds, what is accepted at a ticket root, and counters close to 2^63.

use crate::counters::{first_past, MOST_COUNTED};
use crate::refusals::{accept_tree, well_formed, words_well_formed, REASONS};
use crate::table::{Place, State, Tree, RECORD_ROOM, ROOT};
use crate::words::{StateWords, TreeWords};

/// The outcome of a call: its number and place, and the schedule.
#[derive(Clone, Copy)]
pub struct Outcome<'a> {
    pub number: u32,
    pub place: u32,
    pub schedule: &'a [u16],
}

#[derive(Default)]
pub struct StateMet {
    queue: u64,
    ticket: u64,
    alone: [u64; REASONS.len()],
    one_ticket: u64,
    far_apart: u64,
    nobody_to_raise: u64,
    counters: CountersMet,
}

/// The most entries that the library counts at once. 19 must also occur after that many.
const PIECE: u32 = 1_024;

/// Counts 19 by position: at the first entry, after it, and after a piece. Also counts another number when 19 would have come next, and acceptance with a counter of 2^63 or with one so close that the steps had to be taken.
#[derive(Default)]
struct CountersMet {
    past_at_first: u64,
    past_later: u64,
    past_after_a_piece: u64,
    past_after_another: u64,
    at_the_most: u64,
    near_the_most: u64,
}

impl CountersMet {
    fn count(&mut self, tree: &Tree, state: &State, outcome: Outcome) {
        let largest = state.counters.all().max().unwrap_or(0);
        match outcome.number {
            0 => {
                self.at_the_most += (largest == MOST_COUNTED) as u64;
                self.near_the_most += (largest < MOST_COUNTED && largest + outcome.schedule.len() as u64 > MOST_COUNTED) as u64;
            }
            19 if outcome.place == 0 => self.past_at_first += 1,
            19 if outcome.place >= PIECE => self.past_after_a_piece += 1,
            19 => self.past_later += 1,
            13 | 18 if well_formed(tree, state) => self.past_after_another += first_past(tree, state, outcome.schedule).is_some() as u64,
            _ => (),
        }
    }

    fn print(&self) {
        let CountersMet { past_at_first, past_later, past_after_a_piece, past_after_another, at_the_most, near_the_most } = self;
        println!("19 at the first entry: {past_at_first}, later: {past_later}, after {PIECE} entries: {past_after_a_piece}; 13 or 18 where 19 came next: {past_after_another}");
        println!("accepted with a counter of 2^63: {at_the_most}, with one nearer to it than the schedule is long: {near_the_most}");
    }

    fn complete(&self) -> bool {
        let past = [self.past_at_first, self.past_later, self.past_after_a_piece, self.past_after_another];
        past.iter().chain(&[self.at_the_most, self.near_the_most]).all(|&times| times > 0)
    }
}

impl StateMet {
    /// Counts a call on a state, and its outcome.
    pub fn count(&mut self, tree: &TreeWords, state: &StateWords, outcome: Outcome) {
        let (tree, state) = match (tree.tree(), state.state()) {
            (tree, Some(state)) if accept_tree(&tree).is_ok() => (tree, state),
            _ => return,
        };
        self.counters.count(&tree, &state, outcome);
        match outcome.number {
            0 if tree.ticket_root => self.count_accepted(&tree, &state),
            0 => self.queue += 1,
            10 => self.count_refused(&tree, &state),
            _ => (),
        }
    }

    /// A reason counts only if it is the only one.
    fn count_refused(&mut self, tree: &Tree, state: &State) {
        let reasons: Vec<usize> = (0..REASONS.len()).filter(|&reason| REASONS[reason].1(tree, state)).collect();
        if let ([reason], true) = (&reasons[..], words_well_formed(tree, state)) {
            self.alone[*reason] += 1;
        }
    }

    fn count_accepted(&mut self, tree: &Tree, state: &State) {
        let watches = |&thread: &usize| state.places[thread] == Place::Watch;
        let mut watched: Vec<usize> = (0..tree.threads).filter(watches).map(|thread| tree.record(thread, ROOT)).collect();
        watched.sort_unstable();
        watched.dedup();
        let mut tickets: Vec<u64> = watched.iter().map(|&record| state.statuses[record]).collect();
        tickets.sort_unstable();
        self.ticket += 1;
        self.one_ticket += tickets.windows(2).any(|two| two[0] == two[1]) as u64;
        self.far_apart += (state.ticket.wrapping_sub(state.grant) as usize > RECORD_ROOM) as u64;
        self.nobody_to_raise += (!watched.is_empty() && !state.places.iter().any(|place| matches!(place, Place::Inside | Place::Raise))) as u64;
    }

    pub fn print(&self) {
        println!("steps and runs accepted at queue roots: {}, at ticket roots: {}", self.queue, self.ticket);
        let (one, far, nobody) = (self.one_ticket, self.far_apart, self.nobody_to_raise);
        println!("of these one ticket watched by several members: {one}, ticket and grant far apart: {far}, watched and nobody inside or raising: {nobody}");
        let reasons: Vec<String> = REASONS.iter().zip(self.alone).map(|((name, _), times)| format!("{name}: {times}")).collect();
        println!("refused by 10 for this alone: {}", reasons.join(", "));
        self.counters.print();
    }

    /// Whether everything occurred, and the two kinds of root occurred equally often to within a quarter.
    pub fn complete(&self) -> bool {
        let accepted = [self.queue, self.ticket, self.one_ticket, self.far_apart, self.nobody_to_raise];
        let equally = 4 * self.queue.abs_diff(self.ticket) <= self.queue.max(self.ticket);
        accepted.iter().chain(&self.alone).all(|&times| times > 0) && equally && self.counters.complete()
    }
}
