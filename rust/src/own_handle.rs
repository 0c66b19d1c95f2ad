//! A handle of a machine that belongs to one thread.

use crate::regions::{Block, Machine, Occupancy, OpenError, TakeError};
use crate::regions_ffi::{self as ffi, Answer, BlockHandle};
use crate::Region;
#[cfg(feature = "std")]
use crate::{event::deadline_of, waiting};
use core::borrow::Borrow;
use core::fmt;
#[cfg(feature = "std")]
use std::time::{Duration, Instant};

/// A handle of a machine that one thread has for itself, with its machine by reference or by `Arc`.
/// See [`Machine::handle`].
///
/// The calls of a machine borrow handles that threads share. Those of this handle do not, so they
/// are lock-free: no other thread can stop them. This holds for each call here except
/// [`take_or_wait`] and [`take_timeout`], which sleep. There is one more limit, with the feature
/// `std`. A take or a release that wakes threads locks a mutex of the standard library for it.
///
/// A block that this handle takes is a guard as any other. If it is dropped, its release borrows a
/// handle that threads share. So give blocks to [`release`], which is lock-free. The guards stay
/// valid after the handle, and any thread may drop or release them.
///
/// A drop shuts the handle. A machine cannot be closed while a handle borrows it.
///
/// ```
/// use cubejobs::regions::Machine;
///
/// let machine = Machine::new(10)?;
/// std::thread::scope(|scope| {
///     for _ in 0..4 {
///         let mut handle = machine.handle().expect("there is memory");
///         scope.spawn(move || {
///             let block = handle.take_exact(3).expect("the machine has more than enough");
///             handle.release(block).expect("it is of this machine");
///         });
///     }
/// });
/// assert_eq!(machine.occupancy().held, 0);
/// # Ok::<(), Box<dyn std::error::Error>>(())
/// ```
///
/// [`release`]: Handle::release
/// [`take_or_wait`]: Handle::take_or_wait
/// [`take_timeout`]: Handle::take_timeout
#[must_use = "a drop shuts the handle"]
pub struct Handle<M: Borrow<Machine>> {
    machine: M,
    handle: ffi::Handle,
}

impl<M: Borrow<Machine>> Handle<M> {
    /// Opens a handle as [`Machine::handle`] does, of a machine by reference or by `Arc`.
    ///
    /// # Errors
    ///
    /// `OutOfMemory`.
    pub fn new(machine: M) -> Result<Self, OpenError> {
        let opened = machine.borrow().handles.another();
        match opened {
            Ok(handle) => Ok(Handle { machine, handle }),
            Err(ffi::OUT_OF_MEMORY) => Err(OpenError::OutOfMemory),
            Err(code) => unreachable!("a share has no code {code}"),
        }
    }

    /// Returns the machine.
    pub fn machine(&self) -> &Machine {
        self.machine.borrow()
    }

    /// Releases a block of the machine, which any thread may have taken.
    ///
    /// # Errors
    ///
    /// Returns the block if it is of another machine.
    pub fn release<N: Borrow<Machine>>(&mut self, mut block: Block<N>) -> Result<(), Block<N>> {
        if ffi::release(&mut self.handle, &mut block.handle) != ffi::DONE {
            return Err(block);
        }
        self.machine().raise();
        Ok(())
    }

    /// Splits a block of the machine into its lower and its upper half.
    ///
    /// # Errors
    ///
    /// Returns the block if it has one processor, or is of another machine.
    pub fn split<N: Borrow<Machine> + Clone>(
        &mut self,
        block: Block<N>,
    ) -> Result<(Block<N>, Block<N>), Block<N>> {
        block.split_by(Some(&mut self.handle))
    }

    /// Joins the lower and the upper half of a block of the machine.
    ///
    /// # Errors
    ///
    /// Returns the two if they are not that.
    pub fn join<N: Borrow<Machine>>(
        &mut self,
        lower: Block<N>,
        upper: Block<N>,
    ) -> Result<Block<N>, (Block<N>, Block<N>)> {
        lower.join_by(upper, Some(&mut self.handle))
    }

    /// Counts as [`Machine::occupancy`] does.
    pub fn occupancy(&mut self) -> Occupancy {
        Occupancy::of(&mut self.handle)
    }
}

impl<M: Borrow<Machine> + Clone> Handle<M> {
    /// Takes a block as [`Machine::take`] does.
    ///
    /// # Errors
    ///
    /// `BadDimension` or `NotNow`.
    pub fn take(&mut self, k: u32) -> Result<Block<M>, TakeError> {
        self.take_by(|thread, handle| ffi::take(thread, handle, k))
    }

    /// Takes a block as [`Machine::take_exact`] does.
    ///
    /// # Errors
    ///
    /// The first of these that applies: `BadDimension`, `NoRoom`, `NotNow`.
    pub fn take_exact(&mut self, k: u32) -> Result<Block<M>, TakeError> {
        self.take_by(|thread, handle| ffi::take_exact(thread, handle, k))
    }

    /// Takes this block as [`Machine::take_at`] does.
    ///
    /// # Errors
    ///
    /// The first of these that applies: `BadDimension`, `BadBase`, `Taken`, `NotNow`.
    pub fn take_at(&mut self, region: Region) -> Result<Block<M>, TakeError> {
        self.take_by(|thread, handle| ffi::take_at(thread, handle, region.base, region.dim))
    }

    /// Takes a block as [`Machine::take_or_wait`] does, and sleeps until it can.
    ///
    /// # Errors
    ///
    /// The first of these that applies: `Stopped`, `BadDimension`.
    #[cfg(feature = "std")]
    pub fn take_or_wait(&mut self, k: u32) -> Result<Block<M>, TakeError> {
        self.take_until(k, None)
    }

    /// Takes a block as [`Machine::take_timeout`] does, and sleeps until it can, but no longer than
    /// `timeout`.
    ///
    /// # Errors
    ///
    /// The first of these that applies: `Stopped`, `BadDimension`, `TimedOut`.
    #[cfg(feature = "std")]
    pub fn take_timeout(&mut self, k: u32, timeout: Duration) -> Result<Block<M>, TakeError> {
        self.take_until(k, deadline_of(timeout))
    }

    #[cfg(feature = "std")]
    fn take_until(&mut self, k: u32, deadline: Option<Instant>) -> Result<Block<M>, TakeError> {
        let (event, thread) = (&self.machine.borrow().event, &mut self.handle);
        let mut handle = BlockHandle::EMPTY;
        let answer = waiting::take(event, deadline, |take| take(thread, &mut handle, k))?;
        Block::granted(self.machine.clone(), handle, answer)
    }

    fn take_by(
        &mut self,
        take: impl FnOnce(&mut ffi::Handle, &mut BlockHandle) -> Answer,
    ) -> Result<Block<M>, TakeError> {
        let mut handle = BlockHandle::EMPTY;
        let answer = take(&mut self.handle, &mut handle);
        Block::taken(self.machine.clone(), handle, answer)
    }
}

impl<M: Borrow<Machine>> Drop for Handle<M> {
    fn drop(&mut self) {
        ffi::free(&mut self.handle);
    }
}

impl<M: Borrow<Machine>> fmt::Debug for Handle<M> {
    fn fmt(&self, f: &mut fmt::Formatter<'_>) -> fmt::Result {
        f.debug_struct("Handle").field("machine", self.machine()).finish_non_exhaustive()
    }
}
