// Made from crates/fit_tree/src/names.rt by checks/lib/erase.py. Change that file.
//! Nodes of a machine of the bitmap's dimensions and the blocks that they name.

use crate::source::cube_shape::{MAX_BITMAP_DIM, Region};

/// Returns the block of a node of dimension `k`.
pub(crate) fn block_of(n: u32, k: u32, node: usize) -> Region {
    Region {
        base: ((node - (1 << (n - k))) << k) as u64,
        dim: k,
    }
}

/// Returns the node that names a block.
pub(crate) fn node_of(n: u32, region: Region) -> usize {
    (1 << (n - region.dim)) + (region.base >> region.dim) as usize
}

/// Returns whether a block is aligned in a machine of dimension `n`.
///
/// # Clauses of the proved source
///
/// - requires: `n ≤ MAX_BITMAP_DIM`
/// - ensures: `IsTrue result ↔ IsAligned n region`
pub fn is_aligned(n: u32, region: Region) -> bool {
    if n < region.dim {
        return false;
    }
    if 1 << n <= region.base {
        return false;
    }
    if region.base % (1 << region.dim) != 0 {
        return false;
    }
    true
}
