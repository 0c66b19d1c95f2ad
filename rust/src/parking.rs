//! Sleep for the threads of workers, by the locks of the standard library.

use std::sync::{Condvar, Mutex, PoisonError};
use std::vec::Vec;

/// The place where the thread of one worker sleeps.
#[derive(Default)]
struct Bed {
    // Whether the worker was woken since its thread last went on.
    is_woken: Mutex<bool>,
    changed: Condvar,
}

/// A place for each worker.
#[derive(Default)]
pub struct Parking(Vec<Bed>);

impl Parking {
    /// Makes places for this number of workers. Returns `None` if memory runs out.
    pub fn new(workers: u32) -> Option<Self> {
        let mut beds = Vec::new();
        beds.try_reserve_exact(workers as usize).ok()?;
        beds.resize_with(workers as usize, Bed::default);
        Some(Parking(beds))
    }

    /// Sleeps until the worker is woken. Returns at once if it was woken before.
    pub fn park(&self, worker: u32) {
        let Some(bed) = self.0.get(worker as usize) else { return };
        let mut is_woken = bed.is_woken.lock().unwrap_or_else(PoisonError::into_inner);
        while !*is_woken {
            is_woken = bed.changed.wait(is_woken).unwrap_or_else(PoisonError::into_inner);
        }
        *is_woken = false;
    }

    /// Wakes the thread of a worker.
    pub fn unpark(&self, worker: u32) {
        let Some(bed) = self.0.get(worker as usize) else { return };
        *bed.is_woken.lock().unwrap_or_else(PoisonError::into_inner) = true;
        bed.changed.notify_one();
    }

    pub fn unpark_all(&self) {
        (0..self.0.len() as u32).for_each(|worker| self.unpark(worker));
    }
}
