//! Allocation of any number of aligned blocks for any number of threads: safe Rust over the library
//! `cubejobs_regions`, which is lock-free.
//!
//! A [`Machine`] has `2^n` processors. Threads share it by reference or by `Arc`. A take returns a
//! [`Block`], a guard that releases its block when it is dropped. Any thread may drop it. Blocks
//! that are held at the same time never overlap. This is proved of the library for every
//! interleaving of the calls.
//!
//! ```
//! use cubejobs::regions::Machine;
//! use std::thread;
//!
//! let machine = Machine::new(10)?;
//! thread::scope(|scope| {
//!     let four = machine.take(2).unwrap(); // borrows the machine
//!     scope.spawn(move || drop(four)); // another thread releases it
//!     scope.spawn(|| assert_eq!(machine.take(3).unwrap().region().dim, 3));
//! });
//! assert_eq!(machine.occupancy().held, 0);
//! # Ok::<(), Box<dyn std::error::Error>>(())
//! ```
//!
//! A block over an `Arc` can be stored anywhere:
//!
//! ```
//! use cubejobs::regions::{Held, Machine};
//! use std::sync::Arc;
//!
//! let machine = Arc::new(Machine::new(10)?);
//! let mut stored: Vec<Held> = vec![Held::take(machine.clone(), 4)?];
//! drop(machine); // the block keeps the machine
//! stored.clear();
//! # Ok::<(), Box<dyn std::error::Error>>(())
//! ```
//!
//! # Blocks as two numbers
//!
//! An allocator of memory gets an address back, and no guard. [`Block::into_raw`] makes a guard a
//! [`Region`], which stays held. [`Block::from_raw`] makes a guard of it again. The example
//! `global_alloc` is an allocator for a whole program.
//!
//! Such an allocator must not call itself. Some calls of a machine allocate ([`Machine`]): over the
//! library by `malloc`, and as plain Rust by the program's own allocator. So a thread inside a call
//! of the machine takes its memory elsewhere, as in the example.
//!
//! # Which calls are lock-free
//!
//! The library wants one call at a time with each of its handles. A [`Machine`] has 33, which all
//! threads share. Each call, and each drop of a [`Block`], borrows one that is not in use, by a
//! flag. A call waits while 33 others are in progress. So if 33 threads are stopped in their calls,
//! all others wait for them: these calls are *not* lock-free. [`Machine::handle`] gives a thread a
//! [`Handle`] of its own. Its calls need no flag, and are lock-free.
//!
//! # When to take again
//!
//! [`Machine::take`] goes by hints, so its refusal says nothing. [`Machine::take_exact`] looks at
//! each word before it refuses. With the feature `std`, [`Machine::take_or_wait`] sleeps until it
//! gets a block, and [`Machine::take_timeout`] does so for at most some time.
//! [`Machine::stop_waits`] ends all waits. Without the feature, take again after a moment.
//!
//! # What is not checked
//!
//! These types keep what the library asks of its callers, except for two things. No call may come
//! from a signal handler or from a forked child, and `malloc` and `free` must belong to one
//! allocator. A take and a release also order plain memory that the block guards. Tests show that,
//! and no theorem says so.

use crate::handles::Handles;
pub use crate::own_handle::Handle;
use crate::regions_ffi::{self as ffi, BlockHandle};
use crate::Region;
#[cfg(feature = "std")]
use crate::{event::deadline_of, waiting};
use alloc::sync::Arc;
use core::borrow::Borrow;
use core::error::Error;
use core::fmt;
#[cfg(feature = "std")]
use std::time::{Duration, Instant};

/// The largest dimension of a [`Machine`], which has at most `2^MAX_DIM` processors.
pub const MAX_DIM: u32 = ffi::MAX_DIM;

/// A machine. Any thread may call it. Each call borrows one of 33 handles, and waits while all are
/// borrowed: [`Machine::handle`] returns one that is not shared. See the
/// [module](self#which-calls-are-lock-free).
///
/// [`Machine::new`] and [`Machine::handle`] allocate. Of all other calls for a machine at most 32
/// do, each of which is the first to borrow one of the handles. If memory runs out in such a call,
/// it borrows another handle.
pub struct Machine {
    pub(crate) handles: Handles,
    dim: u32,
    #[cfg(feature = "std")]
    pub(crate) event: crate::event::Event,
}

/// A held block, with its machine by reference or by `Arc`. Dropping this guard releases the block.
#[must_use = "the block is released at once if the guard is dropped"]
pub struct Block<M: Borrow<Machine>> {
    machine: M,
    pub(crate) handle: BlockHandle,
    region: Region,
}

/// A held block that shares its machine. It can be stored.
pub type Held = Block<Arc<Machine>>;

/// The reason why a machine or a handle was not opened.
#[derive(Clone, Copy, Debug, PartialEq, Eq)]
#[non_exhaustive]
pub enum OpenError {
    /// The dimension is above [`MAX_DIM`].
    BadDimension,
    /// Memory ran out.
    OutOfMemory,
}

/// The reason of a refused take. A refusal changes nothing.
#[derive(Clone, Copy, Debug, PartialEq, Eq)]
#[non_exhaustive]
pub enum TakeError {
    /// The dimension is above that of the machine.
    BadDimension,
    /// No block of this dimension begins at this processor.
    BadBase,
    /// A part of each block of this dimension was in use when the call looked at it.
    NoRoom,
    /// A part of the given block was in use when the call looked at it.
    Taken,
    /// No block was found, and one may be free. A quick take had no more hints, or other calls won
    /// the exchanges.
    NotNow,
    /// No block was found until the end of the given time.
    TimedOut,
    /// The machine's waits were stopped by [`Machine::stop_waits`].
    Stopped,
}

/// What is free in a machine. Each word is read at some moment of the call.
#[derive(Clone, Copy, Debug, PartialEq, Eq)]
#[non_exhaustive]
pub struct Occupancy {
    /// The number of free blocks of each dimension, at the dimension.
    pub free: [u64; ffi::FREE_PLACES],
    /// The number of processors in held blocks.
    pub held: u64,
    /// The largest dimension of a free block, if a block is free.
    pub largest: Option<u32>,
}

/// The error of a machine that was not closed: a block of it is held and has no guard. The guard
/// was made a region ([`Block::into_raw`]), or was forgotten ([`core::mem::forget`]).
#[non_exhaustive]
pub struct StillHeld {
    /// The machine.
    pub machine: Machine,
}

impl Machine {
    /// Opens a machine of dimension `dim`. Each processor is free.
    ///
    /// # Errors
    ///
    /// The first of these that applies: `BadDimension`, `OutOfMemory`.
    pub fn new(dim: u32) -> Result<Self, OpenError> {
        match Handles::open(dim) {
            Ok(handles) => Ok(Machine {
                handles,
                dim,
                #[cfg(feature = "std")]
                event: crate::event::Event::default(),
            }),
            Err(ffi::BAD_DIMENSION) => Err(OpenError::BadDimension),
            Err(ffi::OUT_OF_MEMORY) => Err(OpenError::OutOfMemory),
            Err(code) => unreachable!("an open has no code {code}"),
        }
    }

    /// Returns the dimension of the machine.
    pub fn dim(&self) -> u32 {
        self.dim
    }

    /// Opens a handle for one thread. Its calls are lock-free, since no other thread has it. See
    /// [`Handle`].
    ///
    /// # Errors
    ///
    /// `OutOfMemory`.
    pub fn handle(&self) -> Result<Handle<&Machine>, OpenError> {
        Handle::new(self)
    }

    /// Takes a block of dimension `k` the quick way, by hints about full words.
    ///
    /// # Errors
    ///
    /// `BadDimension` or `NotNow`.
    pub fn take(&self, k: u32) -> Result<Block<&Machine>, TakeError> {
        Block::take(self, k)
    }

    /// Takes a block of dimension `k`, and looks at each word before it refuses. If no other call
    /// ran meanwhile, no block of the dimension is free.
    ///
    /// # Errors
    ///
    /// The first of these that applies: `BadDimension`, `NoRoom`, `NotNow`.
    pub fn take_exact(&self, k: u32) -> Result<Block<&Machine>, TakeError> {
        Block::take_exact(self, k)
    }

    /// Takes this block.
    ///
    /// # Errors
    ///
    /// The first of these that applies: `BadDimension`, `BadBase`, `Taken`, `NotNow`.
    pub fn take_at(&self, region: Region) -> Result<Block<&Machine>, TakeError> {
        Block::take_at(self, region)
    }

    /// Takes a block of dimension `k`, and sleeps until it can.
    ///
    /// A thread that waits for a large block may wait as long as others take small ones.
    ///
    /// # Errors
    ///
    /// The first of these that applies: `Stopped`, `BadDimension`.
    ///
    /// ```
    /// let machine = cubejobs::regions::Machine::new(2)?;
    /// let all = machine.take(2)?;
    /// std::thread::scope(|scope| {
    ///     scope.spawn(|| machine.take_or_wait(1).unwrap());
    ///     drop(all); // wakes the other thread
    /// });
    /// # Ok::<(), Box<dyn std::error::Error>>(())
    /// ```
    #[cfg(feature = "std")]
    pub fn take_or_wait(&self, k: u32) -> Result<Block<&Machine>, TakeError> {
        Block::take_or_wait(self, k)
    }

    /// Takes a block of dimension `k`, and sleeps until it can, but no longer than `timeout`. If
    /// that is 0 it never sleeps. Any duration will do.
    ///
    /// Before `TimedOut` it looks at each word once more, in turn with other threads that wait.
    ///
    /// # Errors
    ///
    /// The first of these that applies: `Stopped`, `BadDimension`, `TimedOut`.
    ///
    /// ```
    /// use cubejobs::regions::{Machine, TakeError};
    /// use std::time::Duration;
    ///
    /// let machine = Machine::new(2)?;
    /// let all = machine.take(2)?;
    /// let refused = machine.take_timeout(1, Duration::from_millis(10));
    /// assert_eq!(refused.unwrap_err(), TakeError::TimedOut);
    /// drop(all);
    /// assert!(machine.take_timeout(1, Duration::MAX).is_ok());
    /// # Ok::<(), Box<dyn std::error::Error>>(())
    /// ```
    #[cfg(feature = "std")]
    pub fn take_timeout(&self, k: u32, timeout: Duration) -> Result<Block<&Machine>, TakeError> {
        Block::take_timeout(self, k, timeout)
    }

    /// Ends all waits for blocks of this machine, those of now and all later ones. They return
    /// [`TakeError::Stopped`], also if a block is free. A wait that already has its block returns
    /// it. Nothing makes a machine wait again. Calls that never sleep go on as before.
    ///
    /// So a program that shuts down calls this, and then joins its threads.
    ///
    /// ```
    /// use cubejobs::regions::{Machine, TakeError};
    ///
    /// let machine = Machine::new(2)?;
    /// let all = machine.take(2)?;
    /// std::thread::scope(|scope| {
    ///     let waiter = scope.spawn(|| machine.take_or_wait(1).map(drop));
    ///     machine.stop_waits();
    ///     assert_eq!(waiter.join().unwrap(), Err(TakeError::Stopped));
    /// });
    /// # drop(all);
    /// # Ok::<(), Box<dyn std::error::Error>>(())
    /// ```
    #[cfg(feature = "std")]
    pub fn stop_waits(&self) {
        self.event.stop();
    }

    /// Counts the free blocks and the held processors. Each word is read at some moment of the
    /// call, so the counts are exact if no other call runs meanwhile.
    pub fn occupancy(&self) -> Occupancy {
        Occupancy::of(&mut self.handles.borrow())
    }

    /// Frees the memory of the machine. A drop does so too, but it cannot say that a block is held.
    /// Then the memory is never freed. A [`Handle`] that was forgotten keeps the memory too, which
    /// is no error.
    ///
    /// # Errors
    ///
    /// [`StillHeld`], with the machine, if a block is held that has no guard.
    #[allow(clippy::result_large_err)] // it is called once
    pub fn close(mut self) -> Result<(), StillHeld> {
        if self.handles.free() {
            Ok(())
        } else {
            Err(StillHeld { machine: self })
        }
    }

    /// Makes an event of a call that has ended: a waiter may succeed now.
    #[allow(clippy::unused_self)] // without the feature `std` no thread sleeps here
    pub(crate) fn raise(&self) {
        #[cfg(feature = "std")]
        self.event.raise();
    }
}

impl Drop for Machine {
    fn drop(&mut self) {
        self.handles.free();
    }
}

impl Occupancy {
    /// Counts by a handle of the library.
    pub(crate) fn of(thread: &mut ffi::Handle) -> Self {
        let answer = ffi::occupancy(thread);
        let largest = answer.has_free.then_some(answer.largest);
        Occupancy { free: answer.free, held: answer.held, largest }
    }
}

impl<M: Borrow<Machine>> Block<M> {
    /// Takes a block as [`Machine::take`] does, of a machine by reference or by `Arc`.
    ///
    /// # Errors
    ///
    /// Those of [`Machine::take`], in the same order.
    pub fn take(machine: M, k: u32) -> Result<Self, TakeError> {
        let handles = &machine.borrow().handles;
        let mut handle = BlockHandle::EMPTY;
        let answer = ffi::take(&mut handles.borrow(), &mut handle, k);
        Self::taken(machine, handle, answer)
    }

    /// Takes a block as [`Machine::take_exact`] does, of a machine by reference or by `Arc`.
    ///
    /// # Errors
    ///
    /// Those of [`Machine::take_exact`], in the same order.
    pub fn take_exact(machine: M, k: u32) -> Result<Self, TakeError> {
        let handles = &machine.borrow().handles;
        let mut handle = BlockHandle::EMPTY;
        let answer = ffi::take_exact(&mut handles.borrow(), &mut handle, k);
        Self::taken(machine, handle, answer)
    }

    /// Takes a block as [`Machine::take_at`] does, of a machine by reference or by `Arc`.
    ///
    /// # Errors
    ///
    /// Those of [`Machine::take_at`], in the same order.
    pub fn take_at(machine: M, region: Region) -> Result<Self, TakeError> {
        let handles = &machine.borrow().handles;
        let mut handle = BlockHandle::EMPTY;
        let answer = ffi::take_at(&mut handles.borrow(), &mut handle, region.base, region.dim);
        Self::taken(machine, handle, answer)
    }

    /// Takes a block as [`Machine::take_or_wait`] does, of a machine by reference or by `Arc`.
    ///
    /// # Errors
    ///
    /// Those of [`Machine::take_or_wait`], in the same order.
    #[cfg(feature = "std")]
    pub fn take_or_wait(machine: M, k: u32) -> Result<Self, TakeError> {
        Self::take_until(machine, k, None)
    }

    /// Takes a block as [`Machine::take_timeout`] does, of a machine by reference or by `Arc`.
    ///
    /// # Errors
    ///
    /// Those of [`Machine::take_timeout`], in the same order.
    #[cfg(feature = "std")]
    pub fn take_timeout(machine: M, k: u32, timeout: Duration) -> Result<Self, TakeError> {
        Self::take_until(machine, k, deadline_of(timeout))
    }

    #[cfg(feature = "std")]
    fn take_until(machine: M, k: u32, deadline: Option<Instant>) -> Result<Self, TakeError> {
        let Machine { handles, event, .. } = machine.borrow();
        let mut handle = BlockHandle::EMPTY;
        let answer = waiting::take(event, deadline, |take| take(&mut handles.borrow(), &mut handle, k))?;
        Self::granted(machine, handle, answer)
    }

    /// Returns the held block.
    pub fn region(&self) -> Region {
        self.region
    }

    /// Ends the guard, and returns the block, which stays held. Only [`Block::from_raw`] makes a
    /// guard of it again. Until then [`Machine::close`] returns [`StillHeld`].
    ///
    /// ```
    /// use cubejobs::regions::{Block, Machine};
    ///
    /// let machine = Machine::new(4)?;
    /// let region = machine.take(2)?.into_raw();
    /// assert_eq!(machine.occupancy().held, 4);
    /// // SAFETY: the region is of a block of this machine, and this is its first guard since.
    /// drop(unsafe { Block::from_raw(&machine, region) });
    /// assert_eq!(machine.occupancy().held, 0);
    /// # Ok::<(), Box<dyn std::error::Error>>(())
    /// ```
    #[must_use = "the block is held until it is a guard again"]
    pub fn into_raw(mut self) -> Region {
        self.handle = BlockHandle::EMPTY;
        self.region
    }

    /// Makes the guard of a block again. The machine may be given by another reference than before,
    /// or by an `Arc`.
    ///
    /// # Safety
    ///
    /// [`Block::into_raw`] has returned this region for a block of this machine. No guard was made
    /// of it since. A part of a region is no such region, and neither are two halves together.
    ///
    /// # Panics
    ///
    /// Panics in a debug build if the machine has no such block.
    pub unsafe fn from_raw(machine: M, region: Region) -> Self {
        let Machine { handles, dim, .. } = machine.borrow();
        debug_assert!(region.dim <= *dim && region.range().end <= 1 << dim, "{region} is no block");
        let handle = BlockHandle::of_held(region, *dim, handles.number);
        Block { machine, handle, region }
    }

    /// Splits the block into its lower and its upper half.
    ///
    /// # Errors
    ///
    /// Returns the block itself if it has one processor.
    pub fn split(self) -> Result<(Self, Self), Self>
    where
        M: Clone,
    {
        self.split_by(None)
    }

    /// Joins the lower and the upper half of a block.
    ///
    /// # Errors
    ///
    /// Returns the two if they are not that.
    pub fn join(self, upper: Self) -> Result<Self, (Self, Self)> {
        self.join_by(upper, None)
    }

    /// Splits the block by a handle of the thread, or else by one that is not in use.
    pub(crate) fn split_by(mut self, thread: Option<&mut ffi::Handle>) -> Result<(Self, Self), Self>
    where
        M: Clone,
    {
        let mut half = BlockHandle::EMPTY;
        let mut split = |thread: &mut _| ffi::split(thread, &mut self.handle, &mut half);
        let code = match thread {
            Some(thread) => split(thread),
            None => split(&mut self.machine.borrow().handles.borrow()),
        };
        if code != ffi::DONE {
            return Err(self);
        }
        let machine = self.machine.clone();
        let upper = Block { machine, region: region_of(&half), handle: half };
        self.region = region_of(&self.handle);
        Ok((self, upper))
    }

    /// Joins two halves by a handle of the thread, or else by one that is not in use.
    pub(crate) fn join_by(
        mut self,
        mut upper: Self,
        thread: Option<&mut ffi::Handle>,
    ) -> Result<Self, (Self, Self)> {
        let mut join = |thread: &mut _| ffi::join(thread, &mut self.handle, &mut upper.handle);
        let code = match thread {
            Some(thread) => join(thread),
            None => join(&mut self.machine.borrow().handles.borrow()),
        };
        if code != ffi::DONE {
            return Err((self, upper));
        }
        self.region = region_of(&self.handle);
        Ok(self)
    }

    /// Raises the event, and returns what [`Block::granted`] does.
    pub(crate) fn taken(machine: M, handle: BlockHandle, answer: ffi::Answer) -> Result<Self, TakeError> {
        machine.borrow().raise();
        Self::granted(machine, handle, answer)
    }

    /// Returns the guard of what a take got, or why it was refused.
    pub(crate) fn granted(machine: M, handle: BlockHandle, answer: ffi::Answer) -> Result<Self, TakeError> {
        match answer.code() {
            ffi::DONE => {
                let region = Region { base: answer.base, dim: answer.dim() };
                Ok(Block { machine, handle, region })
            }
            ffi::NO_ROOM => Err(TakeError::NoRoom),
            ffi::NOT_NOW => Err(TakeError::NotNow),
            ffi::BAD_DIMENSION => Err(TakeError::BadDimension),
            ffi::BAD_BASE => Err(TakeError::BadBase),
            ffi::TAKEN => Err(TakeError::Taken),
            code => unreachable!("a take has no code {code}"),
        }
    }
}

fn region_of(handle: &BlockHandle) -> Region {
    let answer = ffi::block(handle);
    Region { base: answer.base, dim: answer.dim() }
}

impl<M: Borrow<Machine>> Drop for Block<M> {
    fn drop(&mut self) {
        // A join or a handle of a thread may have emptied it.
        if self.handle.is_empty() {
            return;
        }
        let machine = self.machine.borrow();
        ffi::release(&mut machine.handles.borrow(), &mut self.handle);
        machine.raise();
    }
}

impl fmt::Debug for Machine {
    fn fmt(&self, f: &mut fmt::Formatter<'_>) -> fmt::Result {
        f.debug_struct("Machine").field("dim", &self.dim).finish_non_exhaustive()
    }
}

impl<M: Borrow<Machine>> fmt::Debug for Block<M> {
    fn fmt(&self, f: &mut fmt::Formatter<'_>) -> fmt::Result {
        f.debug_struct("Block").field("region", &self.region).finish_non_exhaustive()
    }
}

impl fmt::Debug for StillHeld {
    fn fmt(&self, f: &mut fmt::Formatter<'_>) -> fmt::Result {
        f.debug_struct("StillHeld").field("machine", &self.machine).finish()
    }
}

impl fmt::Display for OpenError {
    fn fmt(&self, f: &mut fmt::Formatter<'_>) -> fmt::Result {
        match self {
            OpenError::BadDimension => write!(f, "the dimension is past {MAX_DIM}"),
            OpenError::OutOfMemory => f.write_str("out of memory"),
        }
    }
}

impl fmt::Display for TakeError {
    fn fmt(&self, f: &mut fmt::Formatter<'_>) -> fmt::Result {
        f.write_str(match self {
            TakeError::BadDimension => "the dimension is past that of the machine",
            TakeError::BadBase => "no block of this dimension begins there",
            TakeError::NoRoom => "a part of each block of this dimension was in use",
            TakeError::Taken => "a part of the block was in use",
            TakeError::NotNow => "no block was found, and one may be free",
            TakeError::TimedOut => "no block was found in the given time",
            TakeError::Stopped => "the waits of the machine were stopped",
        })
    }
}

impl fmt::Display for StillHeld {
    fn fmt(&self, f: &mut fmt::Formatter<'_>) -> fmt::Result {
        f.write_str("a block is held that has no guard")
    }
}

impl Error for OpenError {}
impl Error for TakeError {}
impl Error for StillHeld {}

#[cfg(all(test, feature = "std"))]
mod tests {
    use super::TakeError::NotNow;
    use super::{Block, Machine, Region};
    use core::sync::atomic::{AtomicBool, Ordering::SeqCst};
    use core::time::Duration;
    use std::thread;
    use std::vec::Vec;

    const WAITERS: u64 = 8;

    #[test]
    fn refused_waiters_wake_nobody() {
        let machine = Machine::new(0).unwrap();
        let block = machine.take(0).unwrap();
        let wakes = || machine.event.wakes.load(SeqCst);
        thread::scope(|scope| {
            for _ in 0..WAITERS {
                scope.spawn(|| drop(machine.take_or_wait(0).unwrap()));
            }
            thread::sleep(Duration::from_millis(500));
            // Each of the waiters makes one quick take, which may wake each of the others once.
            let most = WAITERS * (WAITERS - 1);
            assert!(wakes() <= most, "{} wakes of {WAITERS} threads that wait", wakes());
            // A quick take of another thread may wake each waiter once.
            assert!(machine.take(0).is_err());
            thread::sleep(Duration::from_millis(100));
            assert!(wakes() <= most + WAITERS, "{} wakes after one more take", wakes());
            drop(block);
        });
    }

    #[test]
    fn only_a_handle_of_a_thread_needs_no_shared_one() {
        let machine = Machine::new(2).unwrap();
        let mut handle = machine.handle().unwrap();
        let block = machine.take(0).unwrap();
        let mut all: Vec<_> = (0..33).map(|_| machine.handles.borrow()).collect();
        handle.release(block).unwrap();
        let (lower, upper) = handle.take(2).and_then(|it| handle.split(it).map_err(|_| NotNow)).unwrap();
        let whole = handle.join(lower, upper).unwrap();
        assert_eq!(handle.occupancy().held, 4);
        handle.release(whole).unwrap();
        thread::scope(|scope| {
            let call = scope.spawn(|| machine.occupancy().held);
            thread::sleep(Duration::from_millis(100));
            assert!(!call.is_finished(), "a call has not waited for a handle");
            all.pop();
            assert_eq!(call.join().unwrap(), 0);
        });
    }

    #[test]
    fn a_rebuilt_handle_has_the_bytes_of_the_first() {
        for dim in [0, 1, 5, 6, 7, 12, 20] {
            let machine = Machine::new(dim).unwrap();
            for k in 0..=dim {
                for number in [0, (1 << (dim - k)) / 3, (1 << (dim - k)) - 1] {
                    let region = Region { base: number << k, dim: k };
                    let block = machine.take_at(region).unwrap();
                    let words = block.handle.words();
                    // SAFETY: the region was given by this machine, and has no guard.
                    let again = unsafe { Block::from_raw(&machine, block.into_raw()) };
                    assert_eq!((again.handle.words(), again.region()), (words, region));
                }
            }
            machine.close().unwrap();
        }
    }

    #[test]
    fn one_block_goes_round() {
        const THREADS: u64 = 16;
        const TURNS: u64 = 200;
        let machine = Machine::new(0).unwrap();
        let is_held = AtomicBool::new(false);
        thread::scope(|scope| {
            for _ in 0..THREADS {
                scope.spawn(|| {
                    for _ in 0..TURNS {
                        let block = machine.take_or_wait(0).unwrap();
                        assert!(!is_held.swap(true, SeqCst));
                        thread::yield_now();
                        is_held.store(false, SeqCst);
                        drop(block);
                    }
                });
            }
        });
        // A turn has two events, which may wake each other thread once: its quick take, and its
        // release.
        let most = 2 * THREADS * TURNS * (THREADS - 1);
        assert!(machine.event.wakes.load(SeqCst) <= most);
    }
}
