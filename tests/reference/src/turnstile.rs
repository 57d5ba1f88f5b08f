//! Threads that take turns: before each step, a thread waits until the schedule names it.

use std::cell::Cell;
use std::sync::atomic::{AtomicBool, AtomicU32, AtomicUsize, Ordering::SeqCst};
use std::thread::{self, Thread};

const NOBODY: usize = usize::MAX;

/// The run has ended; a thread that sees this returns.
#[derive(Debug)]
pub struct Stopped;

pub struct Turnstile {
    scheduler: Thread,
    turn: AtomicUsize,
    line: AtomicU32,
    stopped: AtomicBool,
}

/// One thread's side of the turnstile.
pub struct Turn<'a> {
    turnstile: &'a Turnstile,
    thread: usize,
    held: Cell<bool>,
}

/// The scheduler's side. When it is dropped, even in a panic, the waiting threads are stopped.
pub struct Scheduler<'a> {
    turnstile: &'a Turnstile,
    threads: Vec<Thread>,
}

impl Turnstile {
    /// Called by the thread that will be the scheduler.
    pub fn new() -> Turnstile {
        Turnstile { scheduler: thread::current(), turn: AtomicUsize::new(NOBODY), line: AtomicU32::new(0), stopped: AtomicBool::new(false) }
    }

    pub fn turn(&self, thread: usize) -> Turn<'_> {
        Turn { turnstile: self, thread, held: Cell::new(false) }
    }

    pub fn scheduler(&self) -> Scheduler<'_> {
        Scheduler { turnstile: self, threads: Vec::new() }
    }
}

impl Default for Turnstile {
    fn default() -> Turnstile {
        Turnstile::new()
    }
}

impl Turn<'_> {
    /// Ends the thread's current step and waits for the turn of the next one, which begins at this line of the listing.
    pub fn before(&self, line: u32) -> Result<(), Stopped> {
        if self.held.replace(false) {
            self.turnstile.line.store(line, SeqCst);
            self.give_back();
        }
        while self.turnstile.turn.load(SeqCst) != self.thread {
            if self.turnstile.stopped.load(SeqCst) {
                return Err(Stopped);
            }
            thread::park();
        }
        self.held.set(true);
        Ok(())
    }

    fn give_back(&self) {
        self.turnstile.turn.store(NOBODY, SeqCst);
        self.turnstile.scheduler.unpark();
    }
}

impl Drop for Turn<'_> {
    /// A thread that panics during its turn must not leave the scheduler waiting.
    fn drop(&mut self) {
        if self.held.get() {
            self.give_back();
        }
    }
}

impl Scheduler<'_> {
    /// Threads are added in the order of their numbers.
    pub fn add(&mut self, thread: Thread) {
        self.threads.push(thread);
    }

    /// Lets one thread take one step and returns the line at which its next step begins.
    pub fn pass(&self, thread: usize) -> u32 {
        self.turnstile.turn.store(thread, SeqCst);
        self.threads[thread].unpark();
        while self.turnstile.turn.load(SeqCst) != NOBODY {
            thread::park();
        }
        self.turnstile.line.load(SeqCst)
    }
}

impl Drop for Scheduler<'_> {
    fn drop(&mut self) {
        self.turnstile.stopped.store(true, SeqCst);
        for thread in &self.threads {
            thread.unpark();
        }
    }
}
