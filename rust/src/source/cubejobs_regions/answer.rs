// Made from crates/cubejobs_regions/src/answer.rt by checks/lib/erase.py. Change that file.
//! The answers that callers in C see.

use crate::source::cubejobs_regions::codes::DONE;
use crate::source::bitmap_occupancy::FREE_PLACES;
use crate::source::cube_shape::Region;

/// The answer of a call about a block.
#[repr(C)]
#[derive(Clone, Copy, Debug)]
pub struct Answer {
    /// `DONE`, or why the call was refused.
    pub code: u16,
    /// The block's dimension if the call succeeded, else 0.
    pub dim: u16,
    /// 1 if a refused take gave up a word in which other calls were faster, else 0.
    pub contended: u32,
    /// The block's first processor if the call succeeded, else 0.
    pub base: u64,
}

/// The occupancy of a machine: what of it is free.
#[repr(C)]
#[derive(Clone, Copy, Debug)]
pub struct OccupancyAnswer {
    /// `DONE`, or why the call was refused. Then all else is 0.
    pub code: u32,
    /// The largest dimension of a free block, if there is one, else 0.
    pub largest: u32,
    /// Whether a block is free.
    pub has_free: bool,
    /// The number of processors in held blocks.
    pub held: u64,
    /// The number of free blocks of each dimension, at the dimension. It is 0 above the machine's.
    pub free: [u64; FREE_PLACES],
}

// Makes the answer of a successful call with a block.
#[inline(always)]
pub(crate) fn done(region: Region) -> Answer {
    Answer {
        code: DONE as u16,
        dim: region.dim as u16,
        contended: 0,
        base: region.base,
    }
}

// Makes the answer of a refused call.
#[inline(always)]
pub(crate) fn refused(code: u32, contended: u32) -> Answer {
    Answer {
        code: code as u16,
        dim: 0,
        contended,
        base: 0,
    }
}
