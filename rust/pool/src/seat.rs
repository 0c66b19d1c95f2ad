//! The place of a worker: its mailbox, and what it says as a member of a gang.

use crate::gang::Gang;
use crate::util::{drop_quietly, lock, Padded, Payload};
use std::any::TypeId;
use std::sync::atomic::Ordering::{Relaxed, SeqCst};
use std::sync::atomic::{AtomicBool, AtomicU32, AtomicU64};
use std::sync::{Arc, Mutex};
use std::thread::{self, Thread};

/// A value on its way to another member. A word needs no box.
pub(crate) enum Value {
    Word(TypeId, u64),
    Boxed(Payload),
}

/// A place for a value on its way.
#[derive(Default)]
pub(crate) struct Outbox {
    /// The receiver of the value, plus 1, or 0 if there is no value.
    receiver: AtomicU32,
    value: Mutex<Option<Value>>,
}

impl Outbox {
    /// Returns the worker for which there is a value.
    pub fn receiver(&self) -> Option<usize> {
        self.receiver.load(SeqCst).checked_sub(1).map(|it| it as usize)
    }

    /// Puts a value into the outbox, which is empty.
    fn put(&self, to: usize, value: Value) {
        *lock(&self.value) = Some(value);
        self.receiver.store(to as u32 + 1, SeqCst);
    }

    /// Takes the value.
    pub fn take(&self) -> Option<Value> {
        let value = lock(&self.value).take();
        self.receiver.store(0, SeqCst);
        value
    }
}

/// The barrier of the groups of one dimension whose member of rank 0 has this seat.
#[derive(Default)]
pub(crate) struct Barrier {
    pub arrived: AtomicU32,
    pub round: AtomicU32,
}

/// How often a member in a row looks long in vain, and how often it then looks shortly.
const MOST_LONG: u32 = 8;
const MOST_SHORT: u32 = 256;

/// Whether a member looks long for what it waits for, before it sleeps. The member alone uses it.
///
/// Long looks pay if each member has a processor. Otherwise they take time from the member that is
/// waited for. So after some in vain, the next ones are short. The first one in a gang is short
/// too: others may come late.
#[derive(Default)]
pub(crate) struct Patience {
    has_waited: AtomicBool,
    vain: AtomicU32,
}

impl Patience {
    fn begin(&self) {
        self.has_waited.store(false, Relaxed);
    }

    pub fn next_is_long(&self) -> bool {
        self.has_waited.load(Relaxed) && self.vain.load(Relaxed) < MOST_LONG
    }

    /// Says that what the member looked for has happened. Others read this seat, so it writes only
    /// what changes.
    pub fn has_paid(&self, is_long: bool) {
        if !self.has_waited.load(Relaxed) {
            self.has_waited.store(true, Relaxed);
        }
        if is_long && self.vain.load(Relaxed) != 0 {
            self.vain.store(0, Relaxed);
        }
    }

    /// Says that it has not.
    pub fn was_vain(&self) {
        if self.has_waited.load(Relaxed) {
            let vain = self.vain.load(Relaxed);
            let is_over = vain + 1 >= MOST_LONG + MOST_SHORT;
            self.vain.store(if is_over { MOST_LONG - 1 } else { vain + 1 }, Relaxed);
        }
        self.has_waited.store(true, Relaxed);
    }
}

/// The place of a worker. The gang that holds the worker's processor in its block is the only one
/// that uses it, since blocks that are held never overlap.
#[derive(Default)]
pub(crate) struct Seat {
    /// Whether the thread sleeps for want of work.
    pub is_idle: AtomicBool,
    /// Whether a gang has this seat.
    pub is_held: AtomicBool,
    /// Whether no thread has the worker: that of a job that waits has kept it.
    pub is_kept: AtomicBool,
    /// Whether there is a gang in the mailbox.
    is_called: AtomicBool,
    mail: Mutex<Option<Arc<Gang>>>,
    /// The thread of the member.
    member: Mutex<Option<Thread>>,
    /// Whether the member sleeps until another one has done something, and what that is.
    pub is_asleep: AtomicBool,
    pub want: AtomicU64,
    pub patience: Patience,
    /// The member's values that are not taken. It puts one into each outbox in turn. With two, a
    /// member is seldom late for a partner that is one exchange ahead.
    outboxes: [Outbox; 2],
    /// How many values it has put.
    puts: AtomicU32,
    /// Whether the member has left its gang.
    pub has_left: AtomicBool,
    /// A barrier for each dimension.
    pub barriers: Vec<Barrier>,
}

impl Seat {
    /// Makes a seat of a pool of dimension `dim`.
    pub fn new(dim: u32) -> Padded<Self> {
        let barriers = (0..=dim).map(|_| Barrier::default()).collect();
        Padded(Seat { barriers, ..Seat::default() })
    }

    /// Puts a gang into the mailbox, which is empty.
    pub fn call(&self, gang: Arc<Gang>) {
        *lock(&self.mail) = Some(gang);
        self.is_called.store(true, SeqCst);
    }

    /// Returns whether there is a gang in the mailbox.
    pub fn is_called(&self) -> bool {
        self.is_called.load(SeqCst)
    }

    /// Returns whether this holds for a gang in the mailbox.
    pub fn has_mail(&self, is: impl FnOnce(&Gang) -> bool) -> bool {
        lock(&self.mail).as_ref().is_some_and(|gang| is(gang))
    }

    /// Takes the gang out of the mailbox, in which there is one. This thread is its member.
    pub fn answer(&self) -> Arc<Gang> {
        *lock(&self.member) = Some(thread::current());
        self.is_called.store(false, SeqCst);
        lock(&self.mail).take().expect("a worker that is called has a gang in its mailbox")
    }

    /// Wakes the thread of the member.
    pub fn unpark(&self) {
        if let Some(thread) = &*lock(&self.member) {
            thread.unpark();
        }
    }

    /// Returns the outbox of the next value.
    pub fn next_outbox(&self) -> &Outbox {
        &self.outboxes[self.puts.load(SeqCst) as usize % 2]
    }

    /// Puts a value into the next outbox, which is empty.
    pub fn put(&self, to: usize, value: Value) {
        let outbox = self.next_outbox();
        // A member that sees this value sees the count, and so knows which one is older.
        self.puts.fetch_add(1, SeqCst);
        outbox.put(to, value);
    }

    /// Returns the outbox with the oldest value for a worker.
    pub fn outbox_for(&self, worker: usize) -> Option<&Outbox> {
        loop {
            let puts = self.puts.load(SeqCst);
            let mut by_age = [0, 1].map(|it| &self.outboxes[(puts as usize + it) % 2]).into_iter();
            let found = by_age.find(|outbox| outbox.receiver() == Some(worker));
            // If a value was put meanwhile, the one that was found may be younger than it.
            if self.puts.load(SeqCst) == puts {
                return found;
            }
        }
    }

    /// Makes the seat that of a member of a new gang.
    pub fn prepare(&self) {
        self.is_held.store(true, SeqCst);
        self.patience.begin();
        self.has_left.store(false, SeqCst);
    }

    /// Drops what a gang that has ended left here. If the gang has failed, its barriers may be
    /// in the middle of a round.
    pub fn clear(&self, has_failed: bool) {
        self.outboxes.iter().for_each(|outbox| drop_quietly(outbox.take()));
        if has_failed {
            for barrier in &self.barriers {
                barrier.arrived.store(0, SeqCst);
            }
        }
        self.is_held.store(false, SeqCst);
    }
}

#[cfg(test)]
mod tests {
    use super::{Patience, MOST_LONG, MOST_SHORT};

    /// Looks in vain this number of times, and sees that all looks are as long as `is_long` says.
    fn look_in_vain(patience: &Patience, times: u32, is_long: bool) {
        for _ in 0..times {
            assert_eq!(patience.next_is_long(), is_long);
            patience.was_vain();
        }
    }

    #[test]
    fn long_looks_in_vain_are_followed_by_short_ones() {
        let patience = Patience::default();
        look_in_vain(&patience, 1, false);
        look_in_vain(&patience, MOST_LONG, true);
        for _ in 0..3 {
            look_in_vain(&patience, MOST_SHORT, false);
            look_in_vain(&patience, 1, true);
        }
        look_in_vain(&patience, MOST_SHORT, false);
        // A long look that pays, and another gang.
        patience.has_paid(true);
        patience.begin();
        look_in_vain(&patience, 1, false);
        look_in_vain(&patience, MOST_LONG, true);
    }
}
