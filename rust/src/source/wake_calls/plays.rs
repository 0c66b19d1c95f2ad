// Made from crates/wake_calls/src/plays.rt by checks/lib/erase.py. Change that file.

use crate::source::wake_calls::rule::WakeRule;
use crate::source::kit::atomic_table::Play;
use core::marker::PhantomData;

// An idle worker becomes the searcher of its word.
#[must_use = "the proved source spends each value of this type by a call"]
pub(crate) struct Claims<K, R> {
    rule: PhantomData<(K, R)>,
}

impl<V, K, R: WakeRule<V, K>> Play<(), V> for Claims<K, R> {}

// A worker sets its bit.
#[must_use = "the proved source spends each value of this type by a call"]
pub(crate) struct Rests<K, R> {
    rule: PhantomData<(K, R)>,
}

impl<V, K, R: WakeRule<V, K>> Play<(), V> for Rests<K, R> {}

// The searcher has work and is none any more.
#[must_use = "the proved source spends each value of this type by a call"]
pub(crate) struct Leaves<K, R> {
    rule: PhantomData<(K, R)>,
}

impl<V, K, R: WakeRule<V, K>> Play<(), V> for Leaves<K, R> {}

// A waking thread looks at a word.
#[must_use = "the proved source spends each value of this type by a call"]
pub(crate) struct Notices<K, R> {
    rule: PhantomData<(K, R)>,
}

impl<V, K, R: WakeRule<V, K>> Play<(), V> for Notices<K, R> {}

// A waking thread clears the bit of a sleeper.
#[must_use = "the proved source spends each value of this type by a call"]
pub(crate) struct Wakes<K, R> {
    rule: PhantomData<(K, R)>,
}

impl<V, K, R: WakeRule<V, K>> Play<(), V> for Wakes<K, R> {}

// A thread gives another its token.
#[must_use = "the proved source spends each value of this type by a call"]
pub(crate) struct Gives<K, R> {
    rule: PhantomData<(K, R)>,
}

impl<V, K, R: WakeRule<V, K>> Play<(), V> for Gives<K, R> {}

// A worker that has seen a job looks at its word.
#[must_use = "the proved source spends each value of this type by a call"]
pub(crate) struct Stays<K, R> {
    rule: PhantomData<(K, R)>,
}

impl<V, K, R: WakeRule<V, K>> Play<(), V> for Stays<K, R> {}

// It takes its bit back.
#[must_use = "the proved source spends each value of this type by a call"]
pub(crate) struct Returns<K, R> {
    rule: PhantomData<(K, R)>,
}

impl<V, K, R: WakeRule<V, K>> Play<(), V> for Returns<K, R> {}

// A worker looks at its mailbox.
#[must_use = "the proved source spends each value of this type by a call"]
pub(crate) struct Reads<K, R> {
    rule: PhantomData<(K, R)>,
}

impl<V, K, R: WakeRule<V, K>> Play<(), V> for Reads<K, R> {}

// A worker that has a call takes its bit back.
#[must_use = "the proved source spends each value of this type by a call"]
pub(crate) struct Rises<K, R> {
    rule: PhantomData<(K, R)>,
}

impl<V, K, R: WakeRule<V, K>> Play<(), V> for Rises<K, R> {}

// A worker looks at its bit.
#[must_use = "the proved source spends each value of this type by a call"]
pub(crate) struct Checks<K, R> {
    rule: PhantomData<(K, R)>,
}

impl<V, K, R: WakeRule<V, K>> Play<(), V> for Checks<K, R> {}

// A worker tries to take its token.
#[must_use = "the proved source spends each value of this type by a call"]
pub(crate) struct Waits<K, R> {
    rule: PhantomData<(K, R)>,
}

impl<V, K, R: WakeRule<V, K>> Play<(), V> for Waits<K, R> {}

// A thread puts a call into a mailbox.
#[must_use = "the proved source spends each value of this type by a call"]
pub(crate) struct Calls<K, R> {
    rule: PhantomData<(K, R)>,
}

impl<V, K, R: WakeRule<V, K>> Play<(), V> for Calls<K, R> {}

// It looks at the bit of the thread that it called.
#[must_use = "the proved source spends each value of this type by a call"]
pub(crate) struct Rings<K, R> {
    rule: PhantomData<(K, R)>,
}

impl<V, K, R: WakeRule<V, K>> Play<(), V> for Rings<K, R> {}

// An idle worker takes its call.
#[must_use = "the proved source spends each value of this type by a call"]
pub(crate) struct TakesCall<K, R> {
    rule: PhantomData<(K, R)>,
}

impl<V, K, R: WakeRule<V, K>> Play<(), V> for TakesCall<K, R> {}

// The searcher takes its call.
#[must_use = "the proved source spends each value of this type by a call"]
pub(crate) struct FindsCall<K, R> {
    rule: PhantomData<(K, R)>,
}

impl<V, K, R: WakeRule<V, K>> Play<(), V> for FindsCall<K, R> {}
