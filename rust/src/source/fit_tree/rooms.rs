// Made from crates/fit_tree/src/rooms.rt by checks/lib/erase.py. Change that file.
//! The room of one node.

use crate::source::cube_shape::MAX_BITMAP_DIM;

/// Returns the room of a node that was not taken as one block. Its children have the dimension
/// `dim` and these rooms.
pub(crate) fn join(dim: u32, left: u8, right: u8) -> u8 {
    let whole = dim as u8 + 2;
    if left == whole && right == whole {
        whole + 1
    } else {
        left.max(right).max(1)
    }
}

/// Returns what `join` returns if one child has the room `own`, and is neither taken nor wholly
/// free.
pub(crate) fn join_part(own: u8, other: u8) -> u8 {
    own.max(other)
}
