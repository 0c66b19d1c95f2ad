// Made from crates/cube_shape/src/node.rt by checks/lib/erase.py. Change that file.

use crate::source::cube_shape::limits::MAX_DIM;

/// A node of the binary tree of aligned blocks: `1` is the root, and the children of node `v` are
/// `2v` and `2v + 1`.
#[derive(Clone, Copy, Debug, PartialEq, Eq, PartialOrd, Ord, Hash)]
pub struct Node(pub u64);

/// The side of a node below its parent: an even node is the left child, an odd one the right child.
#[derive(Clone, Copy, Debug, PartialEq, Eq, Hash)]
pub enum Side {
    Left,
    Right,
}

impl Node {
    /// Returns whether this is a node of a machine of dimension `n`: a number from `1` to
    /// `2^(n + 1) - 1`.
    ///
    /// # Clauses of the proved source
    ///
    /// - requires: `n ≤ MAX_DIM`
    /// - ensures: `IsTrue result ↔ IsInCube n self.0`
    pub fn is_in(self, n: u32) -> bool {
        0 < self.0 && self.0 < 1 << (n + 1)
    }
}
