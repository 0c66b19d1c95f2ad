//! A table of atomic words and of slots. Each step is sequentially consistent, as in the kit.

use super::alloc::{AllocError, Global};
use super::collections::Vec;
use crate::place::Slot;
use alloc::boxed::Box;
use core::marker::PhantomData;
use core::sync::atomic::{AtomicU64, Ordering::SeqCst};

/// The rule of a table. Proofs alone read it.
pub trait TableRule<S, V, K> {}

/// The meaning of a step. Proofs alone read it.
pub trait Play<S, V> {}

/// How a seat becomes two. Proofs alone read it.
pub trait Split<V> {}

/// How two seats become one. Proofs alone read it.
pub trait Join<V> {}

/// The right to make steps that have a meaning. It has no bytes.
pub struct Seat<S, V>(PhantomData<fn() -> (S, V)>);

/// A seat that does not name what slots have.
pub struct Badge<V>(PhantomData<fn() -> V>);

/// The slots. Each has its value until the table has ended.
type Slots<S> = Box<[Slot<Option<S>>]>;

/// The words and the slots, as threads share them.
pub struct Shared<S, V, K, P>(Box<[AtomicU64]>, Slots<S>, PhantomData<fn() -> (V, K, P)>);

/// The words and the slots, and the right to close them.
pub struct Table<S, V, K, P, A> {
    pub shared: Shared<S, V, K, P>,
    of: PhantomData<fn() -> A>,
}

/// There was no memory. The slots come back.
pub struct Refused<S> {
    pub slots: Vec<S>,
}

/// The words and the slots at the end.
pub struct Closed<S, A>(Box<[AtomicU64]>, Slots<S>, PhantomData<fn() -> A>);

impl<S, V> Seat<S, V> {
    pub fn into_badge(self) -> Badge<V> {
        Badge(PhantomData)
    }

    /// Lends a slot. The proofs show that the seat has it, so no other thread has it.
    pub fn slot_mut<'a, K, P>(&'a mut self, table: &'a Shared<S, V, K, P>, slot: usize) -> &'a mut S {
        table.1[slot].lend(self).as_mut().expect("a slot without a value")
    }
}

impl<V> Badge<V> {
    pub fn blank() -> Self {
        Badge(PhantomData)
    }

    pub fn into_seat<S>(self) -> Seat<S, V> {
        Seat(PhantomData)
    }
}

impl<S, V, K, P: TableRule<S, V, K>> Table<S, V, K, P, Global> {
    pub fn new(_: Global, words: &[u64], slots: Vec<S>, _: &K) -> Result<(Self, Seat<S, V>), Refused<S>> {
        let (mut made, mut filled) = (alloc::vec::Vec::new(), alloc::vec::Vec::new());
        if made.try_reserve_exact(words.len()).is_err() || filled.try_reserve_exact(slots.len()).is_err() {
            return Err(Refused { slots });
        }
        made.extend(words.iter().map(|word| AtomicU64::new(*word)));
        filled.extend(slots.0.into_iter().map(|value| Slot::new(Some(value))));
        let shared = Shared(made.into_boxed_slice(), filled.into_boxed_slice(), PhantomData);
        Ok((Table { shared, of: PhantomData }, Seat(PhantomData)))
    }

    pub fn of_words(alloc: Global, words: &[u64], about: &K) -> Result<(Self, Seat<S, V>), AllocError> {
        Table::new(alloc, words, Vec::new(alloc), about).map_err(|_| AllocError)
    }

    pub fn close(self) -> Closed<S, Global> {
        Closed(self.shared.0, self.shared.1, PhantomData)
    }

    pub fn close_with(self, _: Seat<S, V>) -> Closed<S, Global> {
        self.close()
    }
}

impl<S, A> Closed<S, A> {
    pub fn word(&self, i: usize) -> u64 {
        self.0[i].load(SeqCst)
    }

    /// Takes the value of a slot. The proofs show that there is one.
    pub fn take(&mut self, i: usize) -> S {
        self.1[i].get_mut().take().expect("a slot without a value")
    }

    pub fn free(self) {}
}

/// Declares steps that change a word by a number. Each returns the word as it was.
macro_rules! fetches {
    ($($name:ident)*) => {
        $(pub fn $name<M: Play<S, V>>(&self, _: &mut Seat<S, V>, word: usize, k: u64) -> u64 {
            self.0[word].$name(k, SeqCst)
        })*
    };
}

impl<S, V, K, P: TableRule<S, V, K>> Shared<S, V, K, P> {
    pub fn peek(&self, word: usize) -> u64 {
        self.0[word].load(SeqCst)
    }

    pub fn load_new_seat<M: Play<S, V>>(&self, word: usize) -> (u64, Seat<S, V>) {
        (self.0[word].load(SeqCst), Seat(PhantomData))
    }

    pub fn swap_new_seat<M: Play<S, V>>(&self, word: usize, new: u64) -> (u64, Seat<S, V>) {
        (self.0[word].swap(new, SeqCst), Seat(PhantomData))
    }

    pub fn split_seat<M: Split<V>>(&self, _: &mut Seat<S, V>) -> Seat<S, V> {
        self.0[0].load(SeqCst);
        Seat(PhantomData)
    }

    pub fn join_seat<M: Join<V>>(&self, _: &mut Seat<S, V>, _: Seat<S, V>) {
        self.0[0].load(SeqCst);
    }

    pub fn load<M: Play<S, V>>(&self, _: &mut Seat<S, V>, word: usize) -> u64 {
        self.0[word].load(SeqCst)
    }

    pub fn store<M: Play<S, V>>(&self, _: &mut Seat<S, V>, word: usize, new: u64) {
        self.0[word].store(new, SeqCst);
    }

    fetches!(fetch_add fetch_sub fetch_and fetch_or fetch_xor);

    /// Returns the word as it was. It is `new` now if it was `old`.
    pub fn compare_exchange<M: Play<S, V>>(&self, _: &mut Seat<S, V>, at: usize, old: u64, new: u64) -> u64 {
        match self.0[at].compare_exchange(old, new, SeqCst, SeqCst) {
            Ok(found) | Err(found) => found,
        }
    }

    /// Exchanges a word as `compare_exchange` does. Proofs alone read `said`.
    pub fn compare_exchange_with<M: Play<S, V>>(
        &self,
        seat: &mut Seat<S, V>,
        word: usize,
        old: u64,
        new: u64,
        _said: &S,
    ) -> u64 {
        self.compare_exchange::<M>(seat, word, old, new)
    }
}
