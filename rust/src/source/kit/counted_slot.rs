//! A value in place, which one thread at a time takes out or puts in, and a word that says which.

use crate::place::Place;
use core::mem::replace;
use core::sync::atomic::{AtomicU64, Ordering::SeqCst};

/// A writer may come.
pub const FREE: u64 = 0;
/// There is a value.
pub const PRESENT: u64 = 1;
/// A writer has the value.
pub const TAKEN: u64 = 3;

/// A fact about each value of a [`Counted`]. Proofs alone read it.
pub trait Fits {
    type Tag;
}

impl<X: Fits> Fits for Option<X> {
    type Tag = X::Tag;
}

/// The value with its word.
pub struct Counted<X> {
    word: AtomicU64,
    value: Place<X>,
}

/// The right that an exchange of the word gained: to write, or none.
#[must_use = "a writer puts a value back"]
pub struct Claim<'a, X>(&'a Counted<X>);

impl<X: Fits> Counted<X> {
    pub fn new(value: X, _: &X::Tag) -> Self {
        Counted { word: AtomicU64::new(FREE), value: Place::new(value) }
    }

    pub fn get_mut(&mut self) -> &mut X {
        self.value.get_mut()
    }

    pub fn load(&self) -> u64 {
        self.word.load(SeqCst)
    }

    /// Exchanges the word. Returns it as it was.
    pub fn turn(&self, old: u64, new: u64) -> (u64, Claim<'_, X>) {
        match self.word.compare_exchange(old, new, SeqCst, SeqCst) {
            Ok(found) | Err(found) => (found, Claim(self)),
        }
    }
}

impl<X> Claim<'_, X> {
    /// Ends a claim that gained nothing.
    pub fn done(self) {}

    /// Leaves a value under this word, and returns what was there. The proofs show that the claim
    /// is a writer's, so no other thread has the place.
    pub fn put(self, value: X, new: u64) -> X {
        let old = replace(&mut *self.0.value.borrow().expect("two writers at a slot"), value);
        self.0.word.store(new, SeqCst);
        old
    }
}
