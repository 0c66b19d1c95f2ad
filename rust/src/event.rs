//! An event count: threads that sleep until a call has ended after which theirs may succeed.
//!
//! It is that of `include/cubejobs_wait.h`. The header says why threads that wait for a block make
//! their exact takes one at a time. It also says why an event comes after each take and release.

#[cfg(feature = "regions")]
use core::sync::atomic::AtomicBool;
use core::sync::atomic::{AtomicU32, Ordering::SeqCst};
use std::sync::{Condvar, Mutex, MutexGuard, PoisonError};
use std::time::{Duration, Instant};

#[derive(Default)]
pub struct Event {
    // Bit 0 is set while a thread may sleep, and the other bits count the raises.
    state: AtomicU32,
    // Set before the raise that wakes the threads for it.
    #[cfg(feature = "regions")]
    is_stopped: AtomicBool,
    // Locked while a waiter makes its exact take.
    #[cfg(feature = "regions")]
    turn: Mutex<()>,
    // Locked between a waiter's look at the state and its sleep, and before it is woken.
    sleep: Mutex<()>,
    changed: Condvar,
    // How often a sleeper was woken.
    #[cfg(test)]
    pub wakes: std::sync::atomic::AtomicU64,
}

/// Returns the end of a time that begins now, or `None` for one that no clock reaches.
pub fn deadline_of(timeout: Duration) -> Option<Instant> {
    Instant::now().checked_add(timeout)
}

fn lock(mutex: &Mutex<()>) -> MutexGuard<'_, ()> {
    mutex.lock().unwrap_or_else(PoisonError::into_inner)
}

impl Event {
    /// Wakes each thread that reads its key before now. It only reads if no key was read since the
    /// last raise.
    pub fn raise(&self) {
        let state = self.state.load(SeqCst);
        // A lost exchange was lost to another raise, which wakes the same threads.
        let is_for_sleepers = state % 2 == 1
            && self.state.compare_exchange(state, state.wrapping_add(1), SeqCst, SeqCst).is_ok();
        if is_for_sleepers {
            drop(lock(&self.sleep));
            self.changed.notify_all();
        }
    }

    /// Stops the event, and wakes each thread. A thread that does not wake by this call reads its
    /// key after it, and then finds the event stopped.
    #[cfg(feature = "regions")]
    pub fn stop(&self) {
        self.is_stopped.store(true, SeqCst);
        self.raise();
    }

    /// Returns whether the event was stopped.
    #[cfg(feature = "regions")]
    pub fn is_stopped(&self) -> bool {
        self.is_stopped.load(SeqCst)
    }

    /// Returns the key of now. Read it before a look.
    pub fn key(&self) -> u32 {
        self.state.fetch_or(1, SeqCst) | 1
    }

    /// Makes a take as the only waiter. Returns what it returns, with the key from before it.
    #[cfg(feature = "regions")]
    pub fn in_turn<T>(&self, take: impl FnOnce() -> T) -> (T, u32) {
        let turn = lock(&self.turn);
        let key = self.key();
        let taken = take();
        drop(turn);
        (taken, key)
    }

    /// Sleeps until the event is raised, or until the deadline if there is one. Returns at once if
    /// the event was raised after the key was read.
    pub fn wait(&self, key: u32, deadline: Option<Instant>) {
        let mut sleep = lock(&self.sleep);
        while self.state.load(SeqCst) == key {
            sleep = match deadline.map(|it| it.saturating_duration_since(Instant::now())) {
                None => self.changed.wait(sleep).unwrap_or_else(PoisonError::into_inner),
                Some(left) if left.is_zero() => return,
                Some(left) => {
                    self.changed.wait_timeout(sleep, left).unwrap_or_else(PoisonError::into_inner).0
                }
            };
            #[cfg(test)]
            self.wakes.fetch_add(1, SeqCst);
        }
    }
}
