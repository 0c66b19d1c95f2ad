// Made from crates/sched_blocks/src/busy.rt by checks/lib/erase.py. Change that file.
//! The tree of busy processors.

use crate::source::cube_shape::MAX_BITMAP_DIM;

/// Returns how many processors have the blocks in use at a node or below it.
///
/// # Clauses of the proved source
///
/// - requires: `node < length busy.now`
/// - ensures: `result ≡ entry_of busy.now node`
pub fn busy_at(busy: &[u32], node: usize) -> u32 {
    busy[node]
}

/// Notes that the block of a node of dimension `dim` is in use.
///
/// # Clauses of the proved source
///
/// - requires machine: `n ≤ MAX_BITMAP_DIM`
/// - requires busy: `length busy.old ≡ 2 ^ (n + 1)`
/// - requires node: `IsNode n dim node`
/// - ensures len: `length busy.new ≡ length busy.old`
/// - ensures busy: `(used : ℕ → Bool) → AreBusy n used busy.old → HasNoneBeside n used node → AreBusy n (set used node true) busy.new`
pub fn add_busy(busy: &mut [u32], n: u32, dim: u32, node: usize) {
    set_busy(busy, n, dim, node, 1 << dim);
}

/// Notes that the block of a node of dimension `dim` is not in use any more.
///
/// # Clauses of the proved source
///
/// - requires machine: `n ≤ MAX_BITMAP_DIM`
/// - requires busy: `length busy.old ≡ 2 ^ (n + 1)`
/// - requires node: `IsNode n dim node`
/// - ensures len: `length busy.new ≡ length busy.old`
/// - ensures busy: `(used : ℕ → Bool) → AreBusy n used busy.old → HasNoneBeside n used node → AreBusy n (set used node false) busy.new`
pub fn drop_busy(busy: &mut [u32], n: u32, dim: u32, node: usize) {
    set_busy(busy, n, dim, node, 0);
}

// Sets how many processors are busy in the block of a node, and mends the entries above it.
fn set_busy(busy: &mut [u32], n: u32, dim: u32, node: usize, count: u32) {
    busy[node] = count;
    let mut place = node;
    let mut own = count;
    for _ in dim..n {
        let sum = sum(own, busy[place ^ 1]);
        place /= 2;
        busy[place] = sum;
        own = sum;
    }
}

// Returns the sum of two counts. In counts that are right it does not wrap.
fn sum(left: u32, right: u32) -> u32 {
    left.wrapping_add(right)
}
