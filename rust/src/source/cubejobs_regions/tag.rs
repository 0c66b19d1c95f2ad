// Made from crates/cubejobs_regions/src/tag.rt by checks/lib/erase.py. Change that file.
//! The tag of a block's handle: whether it holds a block, and which one.

use crate::source::cubejobs_regions::codes::HELD;
use crate::source::cube_shape::{MAX_BITMAP_DIM, Region};

// Returns the tag of a handle that holds this block of a machine of dimension `n`.
#[inline(always)]
pub(crate) fn tag_of(region: Region, n: u32) -> u64 {
    let place = (HELD << MAX_BITMAP_DIM) + region.base;
    (place * 64 + region.dim as u64) * 64 + n as u64
}

// Returns whether a handle with this tag holds a block.
#[inline(always)]
pub(crate) fn holds(tag: u64) -> bool {
    (tag / 64 / 64) >> MAX_BITMAP_DIM == HELD
}

// Returns the block of a tag.
#[inline(always)]
pub(crate) fn region_at(tag: u64) -> Region {
    Region {
        base: tag / 64 / 64 % (1 << MAX_BITMAP_DIM),
        dim: (tag / 64 % 64) as u32,
    }
}

// Returns the dimension of the machine of a tag.
#[inline(always)]
pub(crate) fn dim_at(tag: u64) -> u32 {
    (tag % 64) as u32
}
