//! Sleep for threads whose lane is full.

use crate::util::lock;
use std::sync::atomic::{AtomicUsize, Ordering::SeqCst};
use std::sync::{Condvar, Mutex, PoisonError};

/// Where the threads sleep that wait for room in a lane.
#[derive(Default)]
pub(crate) struct Room {
    /// The number of threads that wait, without those that were called.
    wanted: AtomicUsize,
    calls: Mutex<usize>,
    called: Condvar,
}

impl Room {
    /// Calls one of those that wait, after a job was taken from the lane.
    pub fn made(&self) {
        if self.wanted.load(SeqCst) != 0 {
            self.call(|wanted| wanted.min(1));
        }
    }

    /// Calls all that wait.
    pub fn call_all(&self) {
        self.call(|wanted| wanted);
    }

    fn call(&self, count: impl FnOnce(usize) -> usize) {
        // A waiter holds the lock from its try to its sleep.
        let mut calls = lock(&self.calls);
        let count = count(self.wanted.load(SeqCst));
        self.wanted.fetch_sub(count, SeqCst);
        *calls += count;
        match count {
            0 => {}
            1 => self.called.notify_one(),
            _ => self.called.notify_all(),
        }
    }

    /// Tries until `attempt` returns something, and sleeps in between.
    pub fn wait<T>(&self, mut attempt: impl FnMut() -> Option<T>) -> T {
        let mut calls = lock(&self.calls);
        loop {
            self.wanted.fetch_add(1, SeqCst);
            if let Some(result) = attempt() {
                self.wanted.fetch_sub(1, SeqCst);
                return result;
            }
            while *calls == 0 {
                calls = self.called.wait(calls).unwrap_or_else(PoisonError::into_inner);
            }
            *calls -= 1;
        }
    }
}
