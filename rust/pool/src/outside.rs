//! The lanes of threads that are no workers of a pool. Threads share a few.

use crate::util::{lock, Padded};
use cubejobs::lanes::{Accepted, Lane, Payload, Refused, SubmitError};
use std::cell::Cell;
use std::sync::atomic::{AtomicUsize, Ordering::Relaxed};
use std::sync::Mutex;

/// Lanes that threads share: a thread has the lock of a lane while it submits.
pub(crate) struct Outside<P: Payload> {
    lanes: Vec<Padded<Mutex<Lane<P>>>>,
}

thread_local! {
    // It has no destructor, so a thread that ends can still submit.
    static NUMBER: Cell<usize> = const { Cell::new(0) };
}

/// Returns a number that each thread has for itself. It is not 0.
pub(crate) fn thread_number() -> usize {
    static LAST: AtomicUsize = AtomicUsize::new(0);
    if NUMBER.get() == 0 {
        NUMBER.set(LAST.fetch_add(1, Relaxed) + 1);
    }
    NUMBER.get()
}

impl<P: Payload> Outside<P> {
    pub fn new(lanes: Vec<Lane<P>>) -> Self {
        Outside { lanes: lanes.into_iter().map(|lane| Padded(Mutex::new(lane))).collect() }
    }

    /// Returns which of the lanes is that of this thread.
    pub fn place(&self) -> usize {
        thread_number() % self.lanes.len()
    }

    /// Submits to the lane of a place.
    pub fn submit(&self, place: usize, payload: P) -> Result<Accepted, Refused<SubmitError, P>> {
        lock(&self.lanes[place]).submit(payload, 0)
    }
}
