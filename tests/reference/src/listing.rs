//! Listing 1 of the paper on HMCS locks, run by threads that take turns; `// 7` after code is the listing's line 7.
//! `before(7)` begins a schedule entry: the accesses up to the next `before` are one row of the step table.
//! At a ticket root, `ticket_lock` replaces the second template, lines 63 to 89. Lines 1 to 62 and the recursion are the same code.
//! The brace that ends line 11 has no partner and is left out, so lines 16 and 17 also follow a swap that found no predecessor.

use crate::ticket_lock::TicketLock;
use crate::turnstile::{Stopped, Turn};
use std::sync::atomic::{AtomicBool, AtomicU64, AtomicUsize, Ordering::SeqCst};

const COHORT_START: u64 = 0x1; // 1
const ACQUIRE_PARENT: u64 = u64::MAX - 1; // 1
const WAIT: u64 = u64::MAX; // 1
const UNLOCKED: u64 = 0x0; // 2
const LOCKED: u64 = 0x1; // 2

/// The listing has no line for the critical section.
pub const CRITICAL_SECTION: u32 = 0;

const NULL: usize = usize::MAX;

/// A QNode pointer that threads share: NULL or the number of a QNode.
pub struct Pointer(AtomicUsize);

/// A record.
pub struct QNode {
    status: AtomicU64,
    next: Pointer,
}

/// A domain; its node is the QNode that it enqueues at its parent.
pub struct HNode {
    lock: Pointer,
    parent: Option<usize>,
    node: usize,
    threshold: u64,
}

/// A ticket root has a ticket lock next to the root's HNode, whose queue is not used.
pub struct Lock {
    pub qnodes: Vec<QNode>,
    pub hnodes: Vec<HNode>,
    pub ticket_root: Option<TicketLock>,
    pub inside: Vec<AtomicBool>,
}

/// One thread that acquires and releases the lock forever.
pub struct Worker<'a> {
    lock: &'a Lock,
    turn: Turn<'a>,
}

impl Pointer {
    fn null() -> Pointer {
        Pointer(AtomicUsize::new(NULL))
    }

    pub fn load(&self) -> Option<usize> {
        Some(self.0.load(SeqCst)).filter(|&node| node != NULL)
    }

    fn store(&self, node: Option<usize>) {
        self.0.store(node.unwrap_or(NULL), SeqCst)
    }

    fn swap(&self, node: usize) -> Option<usize> {
        Some(self.0.swap(node, SeqCst)).filter(|&node| node != NULL)
    }

    fn compare_and_swap_null(&self, node: usize) -> bool {
        self.0.compare_exchange(node, NULL, SeqCst, SeqCst).is_ok()
    }
}

impl QNode {
    pub fn new() -> QNode {
        QNode { status: AtomicU64::new(0), next: Pointer::null() }
    }

    pub fn status(&self) -> u64 {
        self.status.load(SeqCst)
    }

    pub fn next(&self) -> Option<usize> {
        self.next.load()
    }

    pub fn set_status(&self, status: u64) {
        self.status.store(status, SeqCst)
    }
}

impl Default for QNode {
    fn default() -> QNode {
        QNode::new()
    }
}

impl HNode {
    pub fn new(parent: Option<usize>, node: usize, threshold: u64) -> HNode {
        HNode { lock: Pointer::null(), parent, node, threshold }
    }

    pub fn tail(&self) -> Option<usize> {
        self.lock.load()
    }
}

impl<'a> Worker<'a> {
    pub fn new(lock: &'a Lock, turn: Turn<'a>) -> Worker<'a> {
        Worker { lock, turn }
    }

    /// Ends when the run is stopped.
    pub fn work(&self, thread: usize, home: usize) {
        while self.enter_and_leave(thread, home).is_ok() {}
    }

    /// The entry that ends an acquire arrives in the critical section. Leaving it is a separate entry.
    fn enter_and_leave(&self, thread: usize, home: usize) -> Result<(), Stopped> {
        self.acquire(home, thread)?;
        self.lock.inside[thread].store(true, SeqCst);
        self.turn.before(CRITICAL_SECTION)?;
        self.lock.inside[thread].store(false, SeqCst);
        self.release(home, thread)
    }

    fn qnode(&self, node: usize) -> &QNode {
        &self.lock.qnodes[node]
    }

    fn hnode(&self, domain: usize) -> &HNode {
        &self.lock.hnodes[domain]
    }

    /// Lines 19 to 21, and 76 to 78 at the root.
    fn acquire(&self, l: usize, i: usize) -> Result<(), Stopped> {
        self.acquire_real(l, i) // 20, 77
    }

    /// Lines 46 to 49, and 85 to 88 at the root.
    fn release(&self, l: usize, i: usize) -> Result<(), Stopped> {
        self.release_real(l, i) // 48, 87
    }

    /// The template's choice by depth: the root has its own code, depending on its kind.
    fn acquire_real(&self, l: usize, i: usize) -> Result<(), Stopped> {
        match (self.hnode(l).parent, &self.lock.ticket_root) {
            (Some(parent), _) => self.acquire_real_below(l, parent, i),
            (None, None) => self.acquire_real_root(l, i),
            (None, Some(ticket_lock)) => ticket_lock.acquire(self.qnode(i), &self.turn),
        }
    }

    fn release_real(&self, l: usize, i: usize) -> Result<(), Stopped> {
        match (self.hnode(l).parent, &self.lock.ticket_root) {
            (Some(parent), _) => self.release_real_below(l, parent, i),
            (None, None) => self.release_real_root(l, i),
            (None, Some(ticket_lock)) => ticket_lock.release(&self.turn),
        }
    }

    /// Lines 5 to 18.
    fn acquire_real_below(&self, l: usize, parent: usize, i: usize) -> Result<(), Stopped> {
        self.turn.before(7)?; // Idle, Prep
        self.qnode(i).set_status(WAIT); // 7
        self.qnode(i).next.store(None); // 7
        self.turn.before(9)?; // Swap
        let pred = self.hnode(l).lock.swap(i); // 9
        if let Some(pred) = pred {
            // 10
            self.turn.before(11)?; // Link
            self.qnode(pred).next.store(Some(i)); // 11
            let mut cur_status; // 12
            loop {
                self.turn.before(13)?; // Wait
                cur_status = self.qnode(i).status(); // 13
                if cur_status != WAIT {
                    break; // 13
                }
            }
            if cur_status < ACQUIRE_PARENT {
                return Ok(()); // 14
            }
        }
        self.qnode(i).set_status(COHORT_START); // 16
        self.acquire_real(parent, self.hnode(l).node) // 17
    }

    /// Lines 24 to 44.
    fn release_real_below(&self, l: usize, parent: usize, i: usize) -> Result<(), Stopped> {
        self.turn.before(25)?; // Check
        let cur_count = self.qnode(i).status(); // 25
        if cur_count == self.hnode(l).threshold {
            // 27
            self.release_real(parent, self.hnode(l).node)?; // 29
            return self.release_helper(l, i, ACQUIRE_PARENT); // 31, 32
        }
        let succ = self.qnode(i).next(); // 35
        if let Some(succ) = succ {
            // 36
            self.turn.before(37)?; // Grant
            self.qnode(succ).set_status(cur_count.wrapping_add(1)); // 37
            return Ok(()); // 38
        }
        self.release_real(parent, self.hnode(l).node)?; // 41
        self.release_helper(l, i, ACQUIRE_PARENT) // 43
    }

    /// Lines 52 to 61.
    fn release_helper(&self, l: usize, i: usize, val: u64) -> Result<(), Stopped> {
        self.turn.before(53)?; // Help
        let succ = self.qnode(i).next(); // 53
        if let Some(succ) = succ {
            // 54
            self.turn.before(55)?; // Grant
            self.qnode(succ).set_status(val); // 55
        } else {
            self.turn.before(57)?; // Cas
            if self.hnode(l).lock.compare_and_swap_null(i) {
                return Ok(()); // 57
            }
            let succ = loop {
                self.turn.before(58)?; // Linger
                if let Some(succ) = self.qnode(i).next() {
                    break succ; // 58
                }
            };
            self.turn.before(59)?; // Grant
            self.qnode(succ).set_status(val); // 59
        }
        Ok(())
    }

    /// Lines 64 to 74.
    fn acquire_real_root(&self, l: usize, i: usize) -> Result<(), Stopped> {
        self.turn.before(66)?; // Idle, Prep
        self.qnode(i).set_status(LOCKED); // 66
        self.qnode(i).next.store(None); // 66
        self.turn.before(67)?; // Swap
        match self.hnode(l).lock.swap(i) // 67, 68
        {
            None => self.qnode(i).set_status(UNLOCKED), // 69
            Some(pred) => {
                self.turn.before(71)?; // Link
                self.qnode(pred).next.store(Some(i)); // 71
                loop {
                    self.turn.before(72)?; // Wait
                    if self.qnode(i).status() != LOCKED {
                        break; // 72
                    }
                }
            }
        }
        Ok(())
    }

    /// Lines 81 to 83.
    fn release_real_root(&self, l: usize, i: usize) -> Result<(), Stopped> {
        self.release_helper(l, i, UNLOCKED) // 82
    }
}
