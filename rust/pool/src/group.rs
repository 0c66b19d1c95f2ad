//! What the members of a gang say to each other.
#![forbid(unsafe_code)]

use crate::gang::{Freed, Gang};
use crate::seat::{Outbox, Seat, Value};
use crate::shared::{Looks, Shared};
use std::any::{Any, TypeId};
use std::fmt;
use std::hint;
use std::marker::PhantomData;
use std::panic::resume_unwind;
use std::sync::atomic::Ordering::SeqCst;
use std::thread;
use std::time::Instant;

/// A member's view of its group: `2^k` workers, each of which runs the same closure.
///
/// Most methods are calls of several members, and must fit. Say that a member calls `exchange` with
/// another one: then that one must call `exchange` with the first. If no member can go on, all
/// panic.
///
/// A group is neither `Send` nor `Sync`: it speaks for the worker that runs the closure.
///
/// ```
/// # let pool = cubejobs_pool::Pool::builder().workers_log2(2).build()?;
/// // Each of four members passes its rank to its two neighbours in the square.
/// let sums = pool.run(2, |group| {
///     let along = group.exchange(group.rank() ^ 1, group.rank());
///     let across = group.exchange(group.rank() ^ 2, group.rank());
///     along + across
/// });
/// assert_eq!(sums, [3, 3, 3, 3]);
/// # Ok::<(), std::io::Error>(())
/// ```
pub struct Group<'a> {
    pool: &'a Shared,
    gang: &'a Gang,
    me: usize,
    base: usize,
    dim: u32,
    is_here: PhantomData<*const ()>,
}

/// What a member waits for.
#[derive(Clone, Copy)]
enum Want {
    /// Its next outbox is empty.
    Room,
    /// The worker with this number has a value for it.
    From(usize),
    /// The barrier of this block goes on after this round.
    Round { base: usize, dim: u32, round: u32 },
}

impl Want {
    /// Returns the want as a word, which `of` reads.
    fn into_word(self) -> u64 {
        match self {
            Want::Room => 0,
            Want::From(place) => 1 | (place as u64) << 8,
            Want::Round { base, dim, round } => {
                2 | (base as u64) << 8 | u64::from(dim) << 24 | u64::from(round) << 32
            }
        }
    }

    fn of(word: u64) -> Self {
        let place = (word >> 8 & 0xffff) as usize;
        match word & 0xff {
            0 => Want::Room,
            1 => Want::From(place),
            _ => Want::Round { base: place, dim: (word >> 24 & 0xff) as u32, round: (word >> 32) as u32 },
        }
    }
}

/// Counts a member as one that sleeps, while it lives.
struct Asleep<'a>(&'a Gang);

impl Drop for Asleep<'_> {
    fn drop(&mut self) {
        self.0.asleep.fetch_sub(1, SeqCst);
        // After this, the member may change what others wait for. A member that has counted the
        // sleepers looks whether this number has changed meanwhile.
        self.0.rises.fetch_add(1, SeqCst);
    }
}

impl<'a> Group<'a> {
    /// Makes the view of the worker `me`, which is a member of the gang.
    pub(crate) fn new(pool: &'a Shared, gang: &'a Gang, me: usize) -> Self {
        let base = gang.base.load(SeqCst);
        Group { pool, gang, me, base, dim: gang.dim, is_here: PhantomData }
    }

    /// Returns the number of this member: from 0 on, below the size.
    ///
    /// ```
    /// # let pool = cubejobs_pool::Pool::builder().workers_log2(1).build()?;
    /// assert_eq!(pool.run(1, |group| group.rank()), [0, 1]);
    /// # Ok::<(), std::io::Error>(())
    /// ```
    #[must_use]
    pub fn rank(&self) -> usize {
        self.me - self.base
    }

    /// Returns the number of members: `2^dim`.
    ///
    /// ```
    /// # let pool = cubejobs_pool::Pool::builder().workers_log2(1).build()?;
    /// assert_eq!(pool.run(1, |group| group.size()), [2, 2]);
    /// # Ok::<(), std::io::Error>(())
    /// ```
    #[must_use]
    pub fn size(&self) -> usize {
        1 << self.dim
    }

    /// Returns the dimension of the group.
    ///
    /// ```
    /// # let pool = cubejobs_pool::Pool::builder().workers_log2(2).build()?;
    /// assert_eq!(pool.run(2, |group| group.half().dim()), [1; 4]);
    /// # Ok::<(), std::io::Error>(())
    /// ```
    #[must_use]
    pub fn dim(&self) -> u32 {
        self.dim
    }

    /// Returns the number in the pool of the worker that has rank 0. It is a multiple of the size.
    /// Groups that run at the same time have no worker in common.
    ///
    /// ```
    /// # let pool = cubejobs_pool::Pool::builder().workers_log2(2).build()?;
    /// let workers = pool.run(2, |group| group.base() + group.rank());
    /// assert_eq!(workers, [0, 1, 2, 3]);
    /// # Ok::<(), std::io::Error>(())
    /// ```
    #[must_use]
    pub fn base(&self) -> usize {
        self.base
    }

    /// Returns whether a member has panicked. A long computation may look, and return early.
    ///
    /// ```
    /// # let pool = cubejobs_pool::Pool::builder().workers_log2(1).build()?;
    /// let ticket = pool.submit(1, |group| match group.rank() {
    ///     0 => std::panic::resume_unwind(Box::new("no")),
    ///     _ => while !group.is_poisoned() {},
    /// });
    /// assert!(ticket.unwrap().join().is_err());
    /// # Ok::<(), std::io::Error>(())
    /// ```
    #[must_use]
    pub fn is_poisoned(&self) -> bool {
        self.gang.has_failed.load(SeqCst)
    }

    /// Returns this member's half of the group, as a group of its own: the ranks below half of the
    /// size, or the others. So a closure can be recursive without another job.
    ///
    /// # Panics
    ///
    /// Panics in a group of one.
    ///
    /// ```
    /// # let pool = cubejobs_pool::Pool::builder().workers_log2(2).build()?;
    /// let sums = pool.run(2, |group| group.half().all_reduce(group.rank(), |a, b| a + b));
    /// assert_eq!(sums, [1, 1, 5, 5]);
    /// # Ok::<(), std::io::Error>(())
    /// ```
    #[must_use]
    pub fn half(&self) -> Group<'_> {
        assert!(self.dim > 0, "a group of one has no halves");
        let dim = self.dim - 1;
        Group { base: self.me >> dim << dim, dim, ..*self }
    }

    fn seat(&self, place: usize) -> &'a Seat {
        &self.pool.seats[place]
    }

    /// Returns the worker of another member.
    fn other(&self, rank: usize) -> usize {
        assert!(rank < self.size(), "there is no rank {rank} in a group of {}", self.size());
        assert!(rank != self.rank(), "the partner of a member is another one");
        self.base + rank
    }

    /// Gives a value to the member `partner`, and returns its value. That one calls `exchange` with
    /// the rank of this one.
    ///
    /// The values borrow nothing. Otherwise a member could keep what lies on another's stack.
    ///
    /// # Panics
    ///
    /// Panics at both if their values have different types. Panics if there is no such other
    /// member, or if it has left.
    ///
    /// ```
    /// # let pool = cubejobs_pool::Pool::builder().workers_log2(1).build()?;
    /// let names = ["of 0", "of 1"];
    /// let theirs = pool.run(1, |group| group.exchange(1 - group.rank(), names[group.rank()]));
    /// assert_eq!(theirs, ["of 1", "of 0"]);
    /// # Ok::<(), std::io::Error>(())
    /// ```
    pub fn exchange<T: Send + 'static>(&self, partner: usize, value: T) -> T {
        let other = self.other(partner);
        self.put(other, value);
        self.get(other)
    }

    /// Gives a value to the member `to`, which calls [`Group::recv`]. It may return before that. A
    /// member has at most two values on their way.
    ///
    /// # Panics
    ///
    /// Panics if there is no such other member. See [`Group::exchange`].
    ///
    /// ```
    /// # let pool = cubejobs_pool::Pool::builder().workers_log2(1).build()?;
    /// let got = pool.run(1, |group| match group.rank() {
    ///     0 => group.recv(1),
    ///     _ => {
    ///         group.send(0, 7);
    ///         0
    ///     }
    /// });
    /// assert_eq!(got, [7, 0]);
    /// # Ok::<(), std::io::Error>(())
    /// ```
    pub fn send<T: Send + 'static>(&self, to: usize, value: T) {
        self.put(self.other(to), value);
    }

    /// Returns the value of the member `from`, which calls [`Group::send`].
    ///
    /// # Panics
    ///
    /// Panics if that member has left, or if its value has another type. See [`Group::exchange`].
    ///
    /// ```
    /// # let pool = cubejobs_pool::Pool::builder().workers_log2(2).build()?;
    /// let next = |group: &cubejobs_pool::Group<'_>| (group.rank() + 1) % 4;
    /// let ranks = pool.run(2, |group| {
    ///     group.send(next(group), group.rank());
    ///     group.recv::<usize>((group.rank() + 3) % 4)
    /// });
    /// assert_eq!(ranks, [3, 0, 1, 2]);
    /// # Ok::<(), std::io::Error>(())
    /// ```
    #[allow(clippy::must_use_candidate)] // a member may only wait for it
    pub fn recv<T: Send + 'static>(&self, from: usize) -> T {
        self.get(self.other(from))
    }

    fn put<T: Send + 'static>(&self, to: usize, value: T) {
        self.wait(Want::Room);
        let value = match as_word(&value) {
            Some(word) => Value::Word(TypeId::of::<T>(), word),
            None => Value::Boxed(Box::new(value)),
        };
        self.seat(self.me).put(to, value);
        self.wake(to);
    }

    fn get<T: Send + 'static>(&self, from: usize) -> T {
        self.wait(Want::From(from));
        let value = self.seat(from).outbox_for(self.me).and_then(Outbox::take);
        self.wake(from);
        let taken = match value {
            Some(Value::Word(id, word)) if id == TypeId::of::<T>() => of_word(word),
            Some(Value::Boxed(boxed)) => boxed.downcast().ok().map(|value| *value),
            _ => None,
        };
        taken.unwrap_or_else(|| panic!("members of a group exchange values of different types"))
    }

    /// Sleeps until all members have called it.
    ///
    /// # Panics
    ///
    /// Panics if a member has left.
    ///
    /// ```
    /// # let pool = cubejobs_pool::Pool::builder().workers_log2(2).build()?;
    /// use std::sync::atomic::{AtomicUsize, Ordering::SeqCst};
    ///
    /// let arrived = AtomicUsize::new(0);
    /// let seen = pool.run(2, |group| {
    ///     arrived.fetch_add(1, SeqCst);
    ///     group.barrier();
    ///     arrived.load(SeqCst)
    /// });
    /// assert_eq!(seen, [4, 4, 4, 4]);
    /// # Ok::<(), std::io::Error>(())
    /// ```
    pub fn barrier(&self) {
        let barrier = &self.seat(self.base).barriers[self.dim as usize];
        let round = barrier.round.load(SeqCst);
        if barrier.arrived.fetch_add(1, SeqCst) + 1 < self.size() as u32 {
            return self.wait(Want::Round { base: self.base, dim: self.dim, round });
        }
        barrier.arrived.store(0, SeqCst);
        barrier.round.store(round.wrapping_add(1), SeqCst);
        self.wake_all();
    }

    /// Wakes a member, if it sleeps.
    fn wake(&self, place: usize) {
        let seat = self.seat(place);
        if seat.is_asleep.load(SeqCst) && seat.is_asleep.swap(false, SeqCst) {
            seat.unpark();
        }
    }

    fn wake_all(&self) {
        if self.gang.asleep.load(SeqCst) != 0 {
            (self.base..self.base + self.size()).for_each(|place| self.wake(place));
        }
    }

    /// Returns whether what the worker of this place waits for has happened.
    fn is_met(&self, place: usize, want: Want) -> bool {
        match want {
            Want::Room => self.seat(place).next_outbox().receiver().is_none(),
            Want::From(from) => self.seat(from).outbox_for(place).is_some(),
            Want::Round { base, dim, round } => {
                self.seat(base).barriers[dim as usize].round.load(SeqCst) != round
            }
        }
    }

    /// Returns whether the worker of this place waits for a member that has left.
    fn is_lost(&self, place: usize, want: Want) -> bool {
        let has_left = |place: usize| self.seat(place).has_left.load(SeqCst);
        match want {
            Want::Room => self.seat(place).next_outbox().receiver().is_some_and(has_left),
            Want::From(from) => has_left(from),
            Want::Round { base, dim, .. } => (base..base + (1 << dim)).any(has_left),
        }
    }

    /// Looks until this has happened, or sleeps. Unwinds if a member has panicked, or if it cannot
    /// happen.
    fn wait(&self, want: Want) {
        let patience = &self.seat(self.me).patience;
        let is_long = patience.next_is_long();
        if self.look(want, is_long) {
            return patience.has_paid(is_long);
        }
        patience.was_vain();
        if !self.may_go_on(want) {
            self.sleep(want);
        }
    }

    /// Looks some times, or for a longer time, until this has happened. Returns whether it did.
    fn look(&self, want: Want, is_long: bool) -> bool {
        let Looks { short, long } = self.pool.looks;
        let look = |_| {
            hint::spin_loop();
            self.is_met(self.me, want)
        };
        let mut is_met = self.is_met(self.me, want) || (0..short).any(look);
        if is_long && !is_met {
            let start = Instant::now();
            while !is_met && start.elapsed() < long {
                is_met = (0..short).any(look);
            }
        }
        is_met
    }

    fn sleep(&self, want: Want) {
        let seat = self.seat(self.me);
        seat.want.store(want.into_word(), SeqCst);
        self.gang.asleep.fetch_add(1, SeqCst);
        let _asleep = Asleep(self.gang);
        self.find_stuck();
        loop {
            seat.is_asleep.store(true, SeqCst);
            if self.may_go_on(want) {
                seat.is_asleep.store(false, SeqCst);
                return;
            }
            thread::park();
        }
    }

    /// Returns whether this has happened. Unwinds if it never will.
    fn may_go_on(&self, want: Want) -> bool {
        if self.is_met(self.me, want) {
            return true;
        }
        if self.is_poisoned() {
            resume_unwind(Box::new(Freed));
        }
        if self.gang.is_stuck.load(SeqCst) {
            panic!("each member of the group waits for another one: their calls do not fit");
        }
        if self.is_lost(self.me, want) && !self.is_met(self.me, want) {
            panic!("a member of the group has left, and another one waits for it");
        }
        false
    }

    /// Frees all members if each one sleeps, and none can go on.
    fn find_stuck(&self) {
        let Gang { asleep, left, rises, .. } = self.gang;
        let before = rises.load(SeqCst);
        let sleepers = asleep.load(SeqCst);
        if sleepers == 0 || sleepers + left.load(SeqCst) < self.gang.size() {
            return;
        }
        // Nothing changes while all sleep, so this look is as good as one at a moment, unless a
        // member has got up meanwhile.
        if self.all_are_stuck() && rises.load(SeqCst) == before {
            self.gang.is_stuck.store(true, SeqCst);
            self.free_all();
        }
    }

    fn all_are_stuck(&self) -> bool {
        let base = self.gang.base.load(SeqCst);
        (base..base + self.gang.size()).filter(|place| !self.seat(*place).has_left.load(SeqCst)).all(
            |place| {
                let want = Want::of(self.seat(place).want.load(SeqCst));
                !self.is_met(place, want) && !self.is_lost(place, want)
            },
        )
    }

    /// Wakes all members of the gang, to see why they cannot go on.
    fn free_all(&self) {
        let base = self.gang.base.load(SeqCst);
        (base..base + self.gang.size()).for_each(|place| self.wake(place));
    }

    /// Leaves the gang. Those that wait for this member see it.
    pub(crate) fn leave(&self) {
        self.seat(self.me).has_left.store(true, SeqCst);
        self.gang.left.fetch_add(1, SeqCst);
        if self.gang.asleep.load(SeqCst) != 0 {
            self.free_all();
            self.find_stuck();
        }
    }
}

/// Returns a value as a word, if it is one.
fn as_word<T: Any>(value: &T) -> Option<u64> {
    let value: &dyn Any = value;
    None.or_else(|| value.downcast_ref::<u64>().copied())
        .or_else(|| value.downcast_ref::<usize>().map(|it| *it as u64))
        .or_else(|| value.downcast_ref::<i64>().map(|it| *it as u64))
        .or_else(|| value.downcast_ref::<f64>().map(|it| it.to_bits()))
        .or_else(|| value.downcast_ref::<u32>().map(|it| u64::from(*it)))
        .or_else(|| value.downcast_ref::<()>().map(|()| 0))
}

/// Returns the value of a word of `as_word`.
fn of_word<T: Any>(word: u64) -> Option<T> {
    let mut value: Option<T> = None;
    let place: &mut dyn Any = &mut value;
    if let Some(it) = place.downcast_mut::<Option<u64>>() {
        *it = Some(word);
    } else if let Some(it) = place.downcast_mut::<Option<usize>>() {
        *it = Some(word as usize);
    } else if let Some(it) = place.downcast_mut::<Option<i64>>() {
        *it = Some(word as i64);
    } else if let Some(it) = place.downcast_mut::<Option<f64>>() {
        *it = Some(f64::from_bits(word));
    } else if let Some(it) = place.downcast_mut::<Option<u32>>() {
        *it = Some(word as u32);
    } else if let Some(it) = place.downcast_mut::<Option<()>>() {
        *it = Some(());
    }
    value
}

impl fmt::Debug for Group<'_> {
    fn fmt(&self, f: &mut fmt::Formatter<'_>) -> fmt::Result {
        f.debug_struct("Group")
            .field("rank", &self.rank())
            .field("dim", &self.dim)
            .field("base", &self.base)
            .finish_non_exhaustive()
    }
}

#[cfg(test)]
mod tests {
    use super::{as_word, of_word, Want};

    #[test]
    fn a_want_is_the_one_of_its_word() {
        for place in [0, 1, 1023] {
            assert!(matches!(Want::of(Want::From(place).into_word()), Want::From(it) if it == place));
            let want = Want::Round { base: place, dim: 10, round: u32::MAX };
            let Want::Round { base, dim, round } = Want::of(want.into_word()) else { panic!("not a round") };
            assert_eq!((base, dim, round), (place, 10, u32::MAX));
        }
        assert!(matches!(Want::of(Want::Room.into_word()), Want::Room));
    }

    #[test]
    fn words_keep_their_values() {
        assert_eq!(as_word(&-1_i64).and_then(of_word), Some(-1_i64));
        assert_eq!(as_word(&1.5_f64).and_then(of_word), Some(1.5_f64));
        assert_eq!(as_word(&7_u32).and_then(of_word), Some(7_u32));
        assert_eq!(as_word(&usize::MAX).and_then(of_word), Some(usize::MAX));
        assert_eq!(as_word(&()).and_then(of_word), Some(()));
        assert_eq!(as_word(&1_u8), None);
    }
}
