// Made from crates/sched_blocks/src/ends.rt by checks/lib/erase.py. Change that file.
//! The tree of ends.

use crate::source::cube_shape::MAX_BITMAP_DIM;

/// Returns the latest end of the blocks in use at a node or below it, or 0 if no job has one.
///
/// # Clauses of the proved source
///
/// - requires: `node < length ends.now`
/// - ensures: `result ≡ entry_of ends.now node`
pub fn end_at(ends: &[u64], node: usize) -> u64 {
    ends[node]
}

/// Sets the end of the block at a node of dimension `dim`, and mends the entries above it. The end
/// is 0 if the block is not in use any more, or out of service.
///
/// # Clauses of the proved source
///
/// - requires machine: `n ≤ MAX_BITMAP_DIM`
/// - requires ends: `length ends.old ≡ 2 ^ (n + 1)`
/// - requires node: `IsNode n dim node`
/// - ensures len: `length ends.new ≡ length ends.old`
/// - ensures ends: `(own : ℕ → ℕ) → AreEnds n own ends.old → HasNoEndBeside n own node → AreEnds n (set own node end) ends.new`
pub fn set_end(ends: &mut [u64], n: u32, dim: u32, node: usize, end: u64) {
    ends[node] = end;
    let mut place = node;
    let mut own = end;
    for _ in dim..n {
        let latest = later(own, ends[place ^ 1]);
        place /= 2;
        if ends[place] == latest {
            return;
        }
        ends[place] = latest;
        own = latest;
    }
}

// Returns the later one of two ends.
fn later(left: u64, right: u64) -> u64 {
    left.max(right)
}
