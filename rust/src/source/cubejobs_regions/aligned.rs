// Made from crates/cubejobs_regions/src/aligned.rt by checks/lib/erase.py. Change that file.
//! Which blocks a machine has.

use crate::source::cube_shape::Region;

// Returns whether a machine of dimension `n` has this block.
pub(crate) fn is_block(n: u32, block: Region) -> bool {
    let number = block.base >> block.dim;
    if number >= 1 << (n - block.dim) {
        return false;
    }
    number << block.dim == block.base
}
