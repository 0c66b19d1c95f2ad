//! Exact first fit of aligned blocks, for one thread or under your lock. You keep the blocks.
//!
//! A take gets the free block with the least base, and is refused only if no block of its dimension
//! is free. A release takes back exactly a block that was taken as one. Each call takes a number of
//! steps in proportion to the dimension of the machine.
//!
//! ```
//! use cubejobs::fit::{FirstFit, FitError};
//! use cubejobs::Region;
//!
//! let mut machine = FirstFit::new(4)?;
//! let pair = machine.take(1)?;
//! assert_eq!(pair, Region { base: 0, dim: 1 });
//! assert_eq!(machine.take(3)?, Region { base: 8, dim: 3 });
//! assert_eq!(machine.take(3), Err(FitError::NoRoom));
//! assert_eq!(machine.largest(), Some(Region { base: 4, dim: 2 }));
//! let (lower, upper) = machine.split(pair)?;
//! assert_eq!(machine.release(pair), Err(FitError::NothingHeld));
//! machine.release(lower)?;
//! machine.release(upper)?;
//! assert_eq!(machine.free_blocks(2), 2);
//! # Ok::<(), FitError>(())
//! ```
//!
//! A machine is an image of [`image_bytes`] bytes, which `include/cubejobs_fit.h` explains. It has
//! no pointers, so it can be in a file or in memory that processes share. [`FirstFit::new`] has
//! memory of its own. [`FirstFit::open`], [`FirstFit::attach`] and [`FirstFit::repair`] take a
//! slice at a multiple of 8:
//!
//! ```
//! use cubejobs::fit::{image_bytes, FirstFit, FitError};
//!
//! #[repr(align(8))]
//! struct Memory([u8; image_bytes(4)]);
//!
//! let mut memory = Memory([0; image_bytes(4)]);
//! let mut machine = FirstFit::open(&mut memory.0, 4)?;
//! let block = machine.take(3)?;
//! let mut machine = FirstFit::attach(&mut memory.0, 4)?;
//! assert_eq!(machine.block_with(7)?, block);
//! # Ok::<(), FitError>(())
//! ```

#[path = "fit_memory.rs"]
mod memory;

use crate::fit_ffi::{self as ffi, Answer};
use crate::Region;
use core::error::Error;
use core::fmt;
pub use memory::Memory;
#[cfg(any(feature = "lanes", feature = "plan", feature = "regions", feature = "std"))]
pub use memory::Owned;

/// The largest dimension of a machine, which has at most `2^MAX_DIM` processors.
pub const MAX_DIM: u32 = ffi::MAX_DIM;

/// A machine with exact first fit over memory of type `M`: [`Owned`], or `&mut [u8]`. A clone is
/// another machine.
#[derive(Clone)]
pub struct FirstFit<M> {
    memory: M,
    dim: u32,
}

/// The reason of a refused call. A refusal changes nothing.
#[derive(Clone, Copy, Debug, PartialEq, Eq)]
#[non_exhaustive]
pub enum FitError {
    /// A part of each block of this dimension is in use.
    NoRoom,
    /// The dimension is above that of the machine, or above [`MAX_DIM`]. Or the block has no
    /// halves.
    BadDimension,
    /// No block of this dimension begins at this processor.
    BadBase,
    /// A part of the block is in use.
    Taken,
    /// No such block is held.
    NothingHeld,
    /// The two halves are not both held as one block each.
    NotHalves,
    /// The memory has fewer than [`image_bytes`] bytes, or does not begin at a multiple of 8.
    BadSize,
    /// The bytes are not a sound image of this dimension.
    BadImage,
}

/// What is free in a machine.
#[derive(Clone, Copy, Debug, PartialEq, Eq)]
#[non_exhaustive]
pub struct Occupancy {
    /// The number of free blocks of each dimension, at the dimension.
    pub free: [u64; ffi::FREE_PLACES],
    /// The number of processors in held blocks.
    pub held: u64,
    /// The largest dimension of a free block, if a block is free.
    pub largest: Option<u32>,
}

/// Returns how many bytes the image of a machine of dimension `dim` has: 0 if it is above
/// [`MAX_DIM`].
#[must_use]
pub const fn image_bytes(dim: u32) -> usize {
    if dim > MAX_DIM {
        return 0;
    }
    ffi::HEAD_BYTES + (2 << dim)
}

#[cfg(any(feature = "lanes", feature = "plan", feature = "regions", feature = "std"))]
impl FirstFit<Owned> {
    /// Makes a machine of dimension `dim` in memory of its own. Nothing is held.
    ///
    /// # Errors
    ///
    /// `BadDimension` if the dimension is above [`MAX_DIM`].
    pub fn new(dim: u32) -> Result<Self, FitError> {
        if dim > MAX_DIM {
            return Err(FitError::BadDimension);
        }
        let mut memory = Owned::zeroed(image_bytes(dim));
        done(ffi::open(memory::Bytes::bytes_mut(&mut memory), dim))?;
        Ok(FirstFit { memory, dim })
    }

    /// Makes a machine of dimension `dim` of a copy of an image, as [`FirstFit::image`] returns it.
    ///
    /// # Errors
    ///
    /// The first of these that applies: `BadDimension`, `BadSize`, `BadImage`.
    pub fn from_image(image: &[u8], dim: u32) -> Result<Self, FitError> {
        if dim > MAX_DIM {
            return Err(FitError::BadDimension);
        }
        let mut memory = Owned::zeroed(image_bytes(dim));
        let own = memory::Bytes::bytes_mut(&mut memory);
        own.copy_from_slice(image.get(..own.len()).ok_or(FitError::BadSize)?);
        done(ffi::check(own, dim))?;
        Ok(FirstFit { memory, dim })
    }
}

impl<'a> FirstFit<&'a mut [u8]> {
    /// Makes a machine of dimension `dim` of the first [`image_bytes`] bytes of the memory,
    /// whatever they were before. Nothing is held. Never uses the other bytes.
    ///
    /// # Errors
    ///
    /// The first of these that applies: `BadDimension`, `BadSize`.
    pub fn open(memory: &'a mut [u8], dim: u32) -> Result<Self, FitError> {
        let memory = placed(memory, dim)?;
        done(ffi::open(memory, dim))?;
        Ok(FirstFit { memory, dim })
    }

    /// Uses memory as a machine of dimension `dim` that was opened before, in another process or in
    /// a file. Changes none of the bytes, and refuses each image that is not sound.
    ///
    /// # Errors
    ///
    /// The first of these that applies: `BadDimension`, `BadSize`, `BadImage`.
    pub fn attach(memory: &'a mut [u8], dim: u32) -> Result<Self, FitError> {
        let memory = placed(memory, dim)?;
        done(ffi::check(memory, dim))?;
        Ok(FirstFit { memory, dim })
    }

    /// Uses memory as [`FirstFit::attach`] does, after a process died inside a call. First it makes
    /// the bytes the sound image of the blocks that are taken. The call happened, or it did not.
    ///
    /// # Errors
    ///
    /// The first of these that applies: `BadDimension`, `BadSize`, `BadImage` (of another
    /// dimension, or no image).
    pub fn repair(memory: &'a mut [u8], dim: u32) -> Result<Self, FitError> {
        let memory = placed(memory, dim)?;
        done(ffi::repair(memory, dim))?;
        Ok(FirstFit { memory, dim })
    }
}

impl<M: Memory> FirstFit<M> {
    /// Takes the first fit of dimension `k`: the free block with the least base.
    ///
    /// # Errors
    ///
    /// The first of these that applies: `BadDimension`, `NoRoom`.
    pub fn take(&mut self, k: u32) -> Result<Region, FitError> {
        block(ffi::take(self.memory.bytes_mut(), self.dim, k))
    }

    /// Takes the block of dimension `k` that begins at the processor `base`.
    ///
    /// # Errors
    ///
    /// The first of these that applies: `BadDimension`, `BadBase`, `Taken`.
    pub fn take_at(&mut self, base: u64, k: u32) -> Result<Region, FitError> {
        block(ffi::take_at(self.memory.bytes_mut(), self.dim, base, k))
    }

    /// Releases a block that was taken as one, or that is a half after a split or the whole after a
    /// join.
    ///
    /// # Errors
    ///
    /// The first of these that applies: `BadDimension`, `BadBase`, `NothingHeld`.
    pub fn release(&mut self, block: Region) -> Result<(), FitError> {
        done(ffi::release(self.memory.bytes_mut(), self.dim, block.base, block.dim))
    }

    /// Splits a held block. Returns its lower and its upper half, which then are held as one block
    /// each.
    ///
    /// # Errors
    ///
    /// The first of these that applies: `BadDimension` (also if it is one processor), `BadBase`,
    /// `NothingHeld`.
    pub fn split(&mut self, block: Region) -> Result<(Region, Region), FitError> {
        done(ffi::split(self.memory.bytes_mut(), self.dim, block.base, block.dim))?;
        block.halves().ok_or(FitError::BadDimension)
    }

    /// Joins the two halves of this block, which then is held as one.
    ///
    /// # Errors
    ///
    /// The first of these that applies: `BadDimension` (also if it is one processor), `BadBase`,
    /// `NotHalves`.
    pub fn join(&mut self, block: Region) -> Result<(), FitError> {
        done(ffi::join(self.memory.bytes_mut(), self.dim, block.base, block.dim))
    }

    /// Returns the block that a take of dimension `k` would get. Takes nothing.
    ///
    /// # Errors
    ///
    /// The first of these that applies: `BadDimension`, `NoRoom`.
    pub fn first(&self, k: u32) -> Result<Region, FitError> {
        block(ffi::first(self.memory.bytes(), self.dim, k))
    }

    /// Returns the free block of dimension `k` with the least base among those that do not overlap
    /// another block, which may be free or held. Takes nothing.
    ///
    /// # Errors
    ///
    /// The first of these that applies: `BadDimension` (of one of them), `BadBase`, `NoRoom`.
    pub fn first_apart(&self, k: u32, avoid: Region) -> Result<Region, FitError> {
        block(ffi::first_apart(self.memory.bytes(), self.dim, k, avoid.base, avoid.dim))
    }

    /// Returns the held block that has this processor.
    ///
    /// # Errors
    ///
    /// The first of these that applies: `BadBase` (no such processor), `NothingHeld` (it is free).
    pub fn block_with(&self, processor: u64) -> Result<Region, FitError> {
        block(ffi::block_with(self.memory.bytes(), self.dim, processor))
    }

    /// Returns whether this is an aligned block of the machine whose processors are all free.
    #[must_use]
    pub fn is_free(&self, block: Region) -> bool {
        ffi::is_free(self.memory.bytes(), self.dim, block.base, block.dim)
    }

    /// Returns the free block of the largest dimension that has one, and of these the one with the
    /// least base. Returns `None` if each processor is held. Takes nothing.
    #[must_use]
    pub fn largest(&self) -> Option<Region> {
        block(ffi::largest(self.memory.bytes(), self.dim)).ok()
    }

    /// Returns how many blocks of dimension `k` are free: 0 if `k` is above the machine's
    /// dimension.
    #[must_use]
    pub fn free_blocks(&self, k: u32) -> u64 {
        ffi::free_blocks(self.memory.bytes(), self.dim, k)
    }

    /// Counts what is free and what is held.
    #[must_use]
    pub fn occupancy(&self) -> Occupancy {
        let answer = ffi::occupancy(self.memory.bytes(), self.dim);
        let largest = answer.has_free.then_some(answer.largest);
        Occupancy { free: answer.free, held: answer.held, largest }
    }

    /// Returns the image of the machine, for a file or another process.
    #[must_use]
    pub fn image(&self) -> &[u8] {
        self.memory.bytes()
    }
}

impl<M> FirstFit<M> {
    /// Returns the dimension of the machine.
    #[must_use]
    pub fn dim(&self) -> u32 {
        self.dim
    }
}

/// Returns the part of the memory that an image of this dimension has.
fn placed(memory: &mut [u8], dim: u32) -> Result<&mut [u8], FitError> {
    if dim > MAX_DIM {
        return Err(FitError::BadDimension);
    }
    if memory.as_ptr().align_offset(8) != 0 {
        return Err(FitError::BadSize);
    }
    memory.get_mut(..image_bytes(dim)).ok_or(FitError::BadSize)
}

/// Returns nothing if a call succeeded, or why it was refused.
fn done(code: u32) -> Result<(), FitError> {
    match code {
        ffi::DONE => Ok(()),
        ffi::NO_ROOM => Err(FitError::NoRoom),
        ffi::BAD_DIMENSION => Err(FitError::BadDimension),
        ffi::BAD_BASE => Err(FitError::BadBase),
        ffi::TAKEN => Err(FitError::Taken),
        ffi::NOTHING_HELD => Err(FitError::NothingHeld),
        ffi::NOT_HALVES => Err(FitError::NotHalves),
        ffi::BAD_SIZE => Err(FitError::BadSize),
        ffi::BAD_IMAGE => Err(FitError::BadImage),
        code => unreachable!("first fit has no code {code}"),
    }
}

/// Returns the block of an answer, or why the call was refused.
fn block(answer: Answer) -> Result<Region, FitError> {
    done(answer.code)?;
    Ok(Region { base: answer.base, dim: answer.dim })
}

impl<M> fmt::Debug for FirstFit<M> {
    fn fmt(&self, f: &mut fmt::Formatter<'_>) -> fmt::Result {
        f.debug_struct("FirstFit").field("dim", &self.dim).finish_non_exhaustive()
    }
}

impl fmt::Display for FitError {
    fn fmt(&self, f: &mut fmt::Formatter<'_>) -> fmt::Result {
        f.write_str(match self {
            FitError::NoRoom => "a part of each block of this dimension is in use",
            FitError::BadDimension => "the dimension is too large, or the block has no halves",
            FitError::BadBase => "no block of this dimension begins at this processor",
            FitError::Taken => "a part of the block is in use",
            FitError::NothingHeld => "no such block is held",
            FitError::NotHalves => "the two halves are not both held as one block each",
            FitError::BadSize => "the memory is too small, or not at a multiple of 8",
            FitError::BadImage => "the bytes are not a sound image of this dimension",
        })
    }
}

impl Error for FitError {}
