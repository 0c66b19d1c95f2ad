// Made from crates/sched_board/src/blocks.rt by checks/lib/erase.py. Change that file.
//! Which blocks a machine has.

use crate::source::cube_shape::{MAX_BITMAP_DIM, Region};

/// Returns whether a block is aligned in a machine of dimension `n`.
pub(crate) fn is_block(n: u32, region: Region) -> bool {
    if n < region.dim {
        return false;
    }
    let size: u64 = 1 << region.dim;
    let count: u64 = 1 << (n - region.dim);
    let number = region.base / size;
    if number >= count {
        return false;
    }
    number * size == region.base
}
