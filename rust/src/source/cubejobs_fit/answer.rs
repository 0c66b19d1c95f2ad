// Made from crates/cubejobs_fit/src/answer.rt by checks/lib/erase.py. Change that file.
//! The answer of a call about a block.

use crate::source::cubejobs_fit::codes::DONE;
use crate::source::cube_shape::Region;

/// The answer of a call about a block.
#[repr(C)]
#[derive(Clone, Copy, Debug)]
pub struct Answer {
    /// `DONE`, or why the call was refused.
    pub code: u32,
    /// The block's dimension if the call succeeded, else 0.
    pub dim: u32,
    /// The block's first processor if the call succeeded, else 0.
    pub base: u64,
}

// Makes the answer of a successful call with a block.
pub(crate) fn done(region: Region) -> Answer {
    Answer {
        code: DONE,
        dim: region.dim,
        base: region.base,
    }
}

// Makes the answer of a refused call.
pub(crate) fn refused(code: u32) -> Answer {
    Answer {
        code,
        dim: 0,
        base: 0,
    }
}
