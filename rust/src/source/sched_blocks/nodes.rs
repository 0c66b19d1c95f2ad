// Made from crates/sched_blocks/src/nodes.rt by checks/lib/erase.py. Change that file.
//! The nodes of blocks, and what both trees note of them.

use crate::source::sched_blocks::busy::{add_busy, drop_busy};
use crate::source::sched_blocks::ends::set_end;
use crate::source::cube_shape::{MAX_BITMAP_DIM, Region};
use crate::source::kit::fixed_vec::FixedVec;

/// Returns the node that names a block.
pub(crate) fn node_of(n: u32, region: Region) -> usize {
    (1 << (n - region.dim)) + (region.base >> region.dim) as usize
}

/// Returns the block of a node of dimension `k`.
pub(crate) fn block_of(n: u32, k: u32, node: usize) -> Region {
    Region {
        base: ((node - (1 << (n - k))) << k) as u64,
        dim: k,
    }
}

/// Notes in both trees that a block is in use until an end.
pub(crate) fn note_use(
    ends: &mut FixedVec<u64>,
    busy: &mut FixedVec<u32>,
    n: u32,
    region: Region,
    end: u64,
) {
    let node = node_of(n, region);
    set_end(ends, n, region.dim, node, end);
    add_busy(busy, n, region.dim, node);
}

/// Notes in both trees that a block is not in use any more.
pub(crate) fn note_idle(ends: &mut FixedVec<u64>, busy: &mut FixedVec<u32>, n: u32, region: Region) {
    let node = node_of(n, region);
    set_end(ends, n, region.dim, node, 0);
    drop_busy(busy, n, region.dim, node);
}
