// Made from crates/cubejobs_regions/src/block_handle.rt by checks/lib/erase.py. Change that file.
//! The handle of a block, which C keeps.

use crate::source::bitmap_tree::HiddenSeat;

/// A block that is held, or nothing, in memory that the caller keeps. It cannot be dropped.
#[repr(C)]
#[must_use = "the proved source spends each value of this type by a call"]
pub struct BlockHandle {
    pub(crate) tag: u64,
    // The number of the machine of the block.
    pub(crate) machine: u64,
    pub(crate) seat: HiddenSeat,
}
