// Made from crates/bitmap_tree/src/halves.rt by checks/lib/erase.py. Change that file.
//! A held block is split into its halves, and two halves are joined. No bit changes.

use crate::source::bitmap_tree::handles::{BitmapTree, HeldBlock};
use crate::source::bitmap_tree::layout::first_word;
use crate::source::bitmap_tree::steps::BlockSeat;
use crate::source::cube_shape::Region;

impl BitmapTree {
    // Opens the word under a unit that is to be split. All bits of the word are the seat's, so none
    // changes.
    fn open_whole_unit(&self, seat: &mut BlockSeat, region: Region) {
        if region.dim % 6 != 0 {
            return;
        }
        let level = region.dim / 6 - 1;
        let number = (region.base >> region.dim) as u32;
        let word = first_word(self.size.dim / 6 - level) + number;
        self.open_whole(seat, word);
    }

    // Splits a held block into its halves, where its seat has a permit for each, if there are
    // permits.
    pub(crate) fn halve(&self, held: HeldBlock) -> (HeldBlock, HeldBlock) {
        let HeldBlock {
            region,
            dim,
            mut seat,
        } = held;
        self.open_whole_unit(&mut seat, region);
        let half = region.dim - 1;
        let upper = self.cut_half(&mut seat);
        (
            HeldBlock {
                region: Region {
                    base: region.base,
                    dim: half,
                },
                dim,
                seat,
            },
            HeldBlock {
                region: Region {
                    base: region.base + (1 << half),
                    dim: half,
                },
                dim,
                seat: upper,
            },
        )
    }

    /// Splits a held block into its lower and its upper half. It makes loads alone, so no bit
    /// changes.
    ///
    /// # Clauses of the proved source
    ///
    /// - requires held: `IsHeldOf self.now held`
    /// - requires anyone: `permits_of self.now ≡ 0`
    /// - requires some: `0 < (held_region held).dim`
    /// - ensures of_machine: `IsHeldOf self.now result.0 × IsHeldOf self.now result.1`
    /// - ensures lower: `held_region result.0 ≡ lower_half (held_region held)`
    /// - ensures upper: `held_region result.1 ≡ upper_half (held_region held)`
    /// - ensures unchanged: `OnlyLooked (held_trail held) (held_trail result.0)`
    /// - ensures no_step: `held_trail result.1 ≡ []`
    pub fn split(&self, held: HeldBlock) -> (HeldBlock, HeldBlock) {
        self.halve(held)
    }

    // Shuts the word of a unit of which the seat has all bits, so that none changes.
    fn shut_whole_unit(&self, seat: &mut BlockSeat, region: Region) {
        if region.dim % 6 != 0 {
            return;
        }
        let level = region.dim / 6 - 1;
        let number = (region.base >> region.dim) as u32;
        let word = first_word(self.size.dim / 6 - level) + number;
        self.shut_whole(seat, word);
    }

    // Joins the halves of a block. The seat has the permits of both.
    pub(crate) fn unite(&self, lower: HeldBlock, upper: HeldBlock) -> HeldBlock {
        let HeldBlock {
            region,
            dim,
            mut seat,
        } = lower;
        let HeldBlock {
            region: _,
            dim: _,
            seat: other,
        } = upper;
        self.glue(&mut seat, other);
        let whole = Region {
            base: region.base,
            dim: region.dim + 1,
        };
        self.shut_whole_unit(&mut seat, whole);
        HeldBlock {
            region: whole,
            dim,
            seat,
        }
    }

    /// Joins the lower and the upper half of a block. It makes loads alone, so no bit changes.
    ///
    /// # Clauses of the proved source
    ///
    /// - requires lower: `IsHeldOf self.now lower`
    /// - requires upper: `IsHeldOf self.now upper`
    /// - requires anyone: `permits_of self.now ≡ 0`
    /// - requires halves: `AreHalves (held_region lower) (held_region upper)`
    /// - ensures of_machine: `IsHeldOf self.now result`
    /// - ensures whole: `held_region result ≡ whole_of (held_region lower)`
    /// - ensures unchanged: `OnlyLooked (held_trail lower) (held_trail result)`
    pub fn join(&self, lower: HeldBlock, upper: HeldBlock) -> HeldBlock {
        self.unite(lower, upper)
    }
}
