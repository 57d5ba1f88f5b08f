//! The ticket lock of source document 001, section 2, as a separate program. It replaces Listing 1's second template at a ticket root.
//! A ticket is kept in the status of the QNode that draws it. `before` begins a schedule entry, as in the listing.

use crate::listing::QNode;
use crate::turnstile::{Stopped, Turn};
use std::sync::atomic::{AtomicU16, Ordering::SeqCst};

/// The lines of this program, numbered after those of the listing, which ends at 89.
pub const DRAW: u32 = 90;
pub const WATCH: u32 = 91;
pub const RAISE: u32 = 92;

pub struct TicketLock {
    ticket: AtomicU16,
    grant: AtomicU16,
}

impl TicketLock {
    pub fn new(start: u16) -> TicketLock {
        TicketLock { ticket: AtomicU16::new(start), grant: AtomicU16::new(start) }
    }

    /// Ticket and grant.
    pub fn counters(&self) -> (u16, u16) {
        (self.ticket.load(SeqCst), self.grant.load(SeqCst))
    }

    /// Takes a ticket and increments the counter, then waits until the grant equals the ticket. The first comparison is in the entry that draws.
    pub fn acquire(&self, node: &QNode, turn: &Turn) -> Result<(), Stopped> {
        turn.before(DRAW)?;
        node.set_status(self.ticket.fetch_add(1, SeqCst) as u64);
        while node.status() != self.grant.load(SeqCst) as u64 {
            turn.before(WATCH)?;
        }
        Ok(())
    }

    /// Increments the grant.
    pub fn release(&self, turn: &Turn) -> Result<(), Stopped> {
        turn.before(RAISE)?;
        self.grant.fetch_add(1, SeqCst);
        Ok(())
    }
}
