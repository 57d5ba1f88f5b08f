//! What document 01's third demand and document 02 say about every run from fresh, for both kinds of root.

use reference::draft::{random_draft, Size};
use reference::random::Random;
use reference::random_state::random_start;
use reference::schedules::{schedule, STYLES};
use reference::standing::*;
use reference::table::*;
use std::collections::BTreeMap;

/// An ungranted member, and how often the threads under each other member have entered since it became ungranted.
struct Stander {
    member: usize,
    entries: BTreeMap<usize, u128>,
}

/// A lock with the ungranted members of each domain, in the order in which they became ungranted.
struct Followed {
    tree: Tree,
    state: State,
    standers: Vec<Vec<Stander>>,
}

/// What occurred at one kind of root.
#[derive(Debug, Default)]
struct Met {
    granted_at_root: u64,
    granted_below: u64,
    allowances_reached: u64,
}

impl Followed {
    fn new(tree: Tree, start: u16) -> Followed {
        let state = State::fresh_at(&tree, start);
        Followed { standers: (0..tree.domains).map(|_| Vec::new()).collect(), tree, state }
    }

    fn step(&mut self, thread: usize, met: &mut Met) {
        let domain = domain_of(&self.tree, &self.state, thread);
        let Standing { begins, ends } = standing(&self.tree, &self.state, thread);
        let kind = step(&self.tree, &mut self.state, thread);
        assert!(ends.len() <= 1, "from fresh a step ends one at most");
        for member in ends {
            let first = self.standers[domain].remove(0);
            assert_eq!(first.member, member, "members are granted in the order in which they began to stand");
            *(if domain == ROOT { &mut met.granted_at_root } else { &mut met.granted_below }) += 1;
        }
        if kind.is_entry() {
            self.count_entry(thread, met);
        }
        if let Some(member) = begins {
            self.standers[domain].push(Stander { member, entries: BTreeMap::new() });
        }
    }

    fn count_entry(&mut self, thread: usize, met: &mut Met) {
        let mut domain = self.tree.home(thread);
        loop {
            let entered = self.tree.record(thread, domain);
            for stander in self.standers[domain].iter_mut().filter(|stander| stander.member != entered) {
                let entries = stander.entries.entry(entered).or_insert(0);
                *entries += 1;
                let allowance = allowance(&self.tree, entered);
                assert!(*entries <= allowance, "entries stay within the allowance");
                met.allowances_reached += (*entries == allowance && allowance > 1) as u64;
            }
            if domain == ROOT {
                return;
            }
            domain = self.tree.parent(domain);
        }
    }

    fn one_inside(&self) -> bool {
        self.state.places.iter().filter(|&&place| place == Place::Inside).count() <= 1
    }

    /// The ungranted members at a ticket root hold the tickets right after the grant, in order. The ticket counter is the one after the last.
    fn tickets_follow(&self) -> bool {
        let State { ticket, grant, statuses, .. } = &self.state;
        let mut last = *grant;
        for stander in &self.standers[ROOT] {
            last = last.wrapping_add(1);
            if statuses[stander.member] != last as u64 {
                return false;
            }
        }
        *ticket == last.wrapping_add(1) || (*ticket == *grant && self.standers[ROOT].is_empty())
    }
}

#[test]
fn one_inside_in_order_and_within_the_allowance() {
    let mut random = Random::new(1);
    let mut roots = [Met::default(), Met::default()];
    for number in 0..3000 {
        let size = Size { domains: random.pick(&[1, 3, 8, 16]), threads: random.pick(&[2, 4, 8, 16]) };
        let mut draft = random_draft(&mut random, size);
        draft.thresholds.iter_mut().for_each(|threshold| *threshold = random.between(1, 3) as u16);
        let tree = draft.tree();
        let entries = schedule(&mut random, &tree, STYLES[number % STYLES.len()], 600);
        let met = &mut roots[usize::from(tree.ticket_root)];
        let mut lock = Followed::new(tree, random_start(&mut random));
        for thread in entries {
            lock.step(thread as usize, met);
            assert!(lock.one_inside());
            assert!(!lock.tree.ticket_root || lock.tickets_follow());
        }
    }
    for met in roots {
        assert!(met.granted_at_root > 1000 && met.granted_below > 1000 && met.allowances_reached > 20, "{met:?}");
    }
}

/// A tree whose threads all have a ticket root as their home.
fn root_alone(threads: usize) -> Tree {
    Tree { domains: 1, threads, ticket_root: true, ..Tree::new() }
}

#[test]
fn a_raise_ends_the_standing_of_all_whom_it_shows_their_ticket() {
    let tree = root_alone(6);
    let mut state = State::fresh();
    (state.ticket, state.grant) = (9, 65_535);
    // 1, 3 and 4 watch with ticket 0. 2 has it and does not watch. 5 watches with the ticket that was drawn last.
    state.places[..6].copy_from_slice(&[Place::Raise, Place::Watch, Place::Idle, Place::Watch, Place::Watch, Place::Watch]);
    state.statuses[..6].copy_from_slice(&[65_535, 0, 0, 0, 0, 8]);
    assert_eq!(standing(&tree, &state, 0), Standing { begins: None, ends: vec![1, 3, 4] });
    assert_eq!(standing(&tree, &state, 1), Standing::default());
    step(&tree, &mut state, 0);
    let kinds: Vec<Kind> = (1..6).map(|thread| step(&tree, &mut state.clone(), thread)).collect();
    assert_eq!(kinds, [Kind::RootEntry, Kind::Move, Kind::RootEntry, Kind::RootEntry, Kind::Stay]);
}

#[test]
fn a_draw_begins_to_stand_where_it_found_another_grant() {
    let tree = root_alone(2);
    let mut state = State::fresh_at(&tree, 65_535);
    assert_eq!(standing(&tree, &state, 0), Standing::default());
    step(&tree, &mut state, 0);
    assert_eq!(standing(&tree, &state, 1), Standing { begins: Some(1), ends: vec![] });
    state.places[1] = Place::Draw;
    assert_eq!(standing(&tree, &state, 1), Standing { begins: Some(1), ends: vec![] });
}
