// Made from crates/cube_shape/src/region.rt by checks/lib/erase.py. Change that file.

use crate::source::cube_shape::limits::MAX_DIM;
use crate::source::cube_shape::node::Node;

/// A block of the machine: the `2^dim` processors from `base` on.
///
/// Allocators give out only aligned blocks, but any two numbers make a `Region`.
#[derive(Clone, Copy, Debug, PartialEq, Eq, Hash)]
pub struct Region {
    /// The least of its processors.
    pub base: u64,
    /// Its dimension.
    pub dim: u32,
}

/// Returns the node that names the aligned block `(m, k)` of a machine of dimension `n`.
///
/// # Clauses of the proved source
///
/// - requires machine: `n ≤ MAX_DIM`
/// - requires dim: `k ≤ n`
/// - requires number: `m < 2 ^ (n - k)`
/// - ensures named: `IsNodeOf n result.0 (block k m)`
/// - ensures alone: `(r : Region) → IsNodeOf n result.0 r → r ≡ block k m`
pub fn node_of(n: u32, k: u32, m: u64) -> Node {
    Node((1 << (n - k)) + m)
}

/// Returns the aligned block that a node names in a machine of dimension `n`.
///
/// # Clauses of the proved source
///
/// - requires machine: `n ≤ MAX_DIM`
/// - requires node: `(0 < node.0) × (node.0 < 2 ^ (n + 1))`
/// - ensures named: `IsNodeOf n node.0 result`
/// - ensures alone: `(v : ℕ) → IsNodeOf n v result → v ≡ node.0`
/// - ensures aligned: `IsAligned n result`
/// - ensures subcube: `IsSubcube n result`
pub fn region_of(n: u32, node: Node) -> Region {
    let depth = node.0.ilog2();
    let dim = n - depth;
    Region {
        base: (node.0 - (1 << depth)) << dim,
        dim,
    }
}

/// Returns whether two blocks have no processor in common.
///
/// Two blocks that nodes name overlap exactly if one of the nodes is the other or an ancestor of
/// it.
///
/// # Clauses of the proved source
///
/// - requires first: `IsWithinLimits a`
/// - requires second: `IsWithinLimits b`
/// - ensures apart: `IsTrue result ↔ AreApart a b`
/// - ensures by_paths: `(n v w : ℕ) → IsNodeOf n v a → IsNodeOf n w b → (IsTrue result ↔ (OnPath v w ⊎ OnPath w v → ⊥))`
pub fn regions_apart(a: Region, b: Region) -> bool {
    a.base + (1 << a.dim) <= b.base || b.base + (1 << b.dim) <= a.base
}
