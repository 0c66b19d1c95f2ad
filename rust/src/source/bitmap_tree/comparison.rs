// Made from crates/bitmap_tree/src/comparison.rt by checks/lib/erase.py. Change that file.
//! Two held blocks, compared.

use crate::source::bitmap_tree::handles::{BitmapTree, HeldBlock};
use crate::source::cube_shape::Region;

impl BitmapTree {
    /// Returns two held blocks as they were, and promises that they have no processor in common.
    ///
    /// # Clauses of the proved source
    ///
    /// - requires first: `IsHeldOf self.now a`
    /// - requires second: `IsHeldOf self.now b`
    /// - ensures of_machine: `IsHeldOf self.now result.0 × IsHeldOf self.now result.1`
    /// - ensures apart: `AreApart (held_region result.0) (held_region result.1)`
    /// - ensures first_region: `held_region result.0 ≡ held_region a`
    /// - ensures second_region: `held_region result.1 ≡ held_region b`
    /// - ensures by_permits: `IsHeldByPermit self.now a → IsHeldByPermit self.now b → IsHeldByPermit self.now result.0 × IsHeldByPermit self.now result.1`
    pub fn apart(&self, a: HeldBlock, b: HeldBlock) -> (HeldBlock, HeldBlock) {
        let HeldBlock {
            region,
            dim,
            mut seat,
        } = a;
        let HeldBlock {
            region: other_region,
            dim: other_dim,
            seat: other_seat,
        } = b;
        self.merge(&mut seat, other_seat);
        self.compare(&mut seat);
        let own = self.cut(&mut seat);
        let first = HeldBlock {
            region,
            dim,
            seat: own,
        };
        let second = HeldBlock {
            region: other_region,
            dim: other_dim,
            seat,
        };
        (first, second)
    }
}

impl HeldBlock {
    /// Returns the block.
    ///
    /// # Clauses of the proved source
    ///
    /// - ensures: `result ≡ held_region self.now`
    pub fn region(&self) -> Region {
        self.region
    }
}
