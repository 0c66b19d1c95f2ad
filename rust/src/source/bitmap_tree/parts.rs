// Made from crates/bitmap_tree/src/parts.rt by checks/lib/erase.py. Change that file.
//! The parts of what the calls return, for a caller that keeps them.

use crate::source::bitmap_tree::handles::{HeldBlock, Refused, Released};
use crate::source::bitmap_tree::steps::{BlankSeat, BlockSeat};
use crate::source::bitmap_tree::view::View;
use crate::source::cube_shape::Region;

/// What a seat knows: the bits that it has, and what its steps found and left.
pub type BlockView = View;

impl HeldBlock {
    /// Takes a held block apart: the block, the dimension of its machine, and its seat,
    /// which cannot be dropped.
    ///
    /// # Clauses of the proved source
    ///
    /// - ensures region: `result.0 ≡ held_region self`
    /// - ensures dim: `result.1 ≡ held_dim self`
    /// - ensures seat: `result.2 ≡ held_seat self`
    /// - ensures held: `IsHeldBy result.1 result.0 result.2`
    pub fn into_parts(self) -> (Region, u32, BlockSeat) {
        let HeldBlock { region, dim, seat } = self;
        (region, dim, seat)
    }

    /// Puts a held block together again.
    ///
    /// # Clauses of the proved source
    ///
    /// - requires held: `IsHeldBy dim region seat`
    /// - ensures region: `held_region result ≡ region`
    /// - ensures dim: `held_dim result ≡ dim`
    /// - ensures seat: `held_seat result ≡ seat`
    pub fn of_parts(region: Region, dim: u32, seat: BlockSeat) -> HeldBlock {
        HeldBlock { region, dim, seat }
    }
}

impl Refused {
    /// Returns the seat of the take, which knows what its steps found.
    ///
    /// # Clauses of the proved source
    ///
    /// - ensures trail: `result.me.0.trail ≡ refused_trail self`
    pub fn into_seat(self) -> BlankSeat {
        let Refused { disturbed: _, seat } = self;
        seat
    }
}

impl Released {
    /// Returns the seat of the release, which knows what its steps changed.
    ///
    /// # Clauses of the proved source
    ///
    /// - ensures trail: `result.me.0.trail ≡ released_trail self`
    pub fn into_seat(self) -> BlankSeat {
        let Released { seat } = self;
        seat
    }
}
