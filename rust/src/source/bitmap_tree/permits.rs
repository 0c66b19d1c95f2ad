// Made from crates/bitmap_tree/src/permits.rt by checks/lib/erase.py. Change that file.
//! Machines with permits. A take spends a permit and a release returns it, so nothing is held once
//! all permits are back.

use crate::source::kit::prelude::{Vec};

use crate::source::bitmap_tree::handles::{BitmapTree, HeldBlock, Permit};
use crate::source::bitmap_tree::steps::BlockSeat;
use crate::source::bitmap_tree::view::Size;
use crate::source::cube_shape::MAX_BITMAP_DIM;
use crate::source::kit::alloc::{AllocError, Global};

impl BitmapTree {
    /// Takes an aligned block of dimension `k` by a permit, which comes back where the take is
    /// refused.
    #[inline(always)]
    ///
    /// # Clauses of the proved source
    ///
    /// - requires permit: `IsPermitOf self.now permit`
    /// - requires fits: `k ≤ dim_of self.now`
    /// - requires processor: `processor < 2 ^ dim_of self.now`
    /// - ensures held: `IfOk result (IsHeldByPermit self.now)`
    /// - ensures aligned: `IfOk result (λ held. IsAligned (dim_of self.now) (held_region held))`
    /// - ensures dimension: `IfOk result (λ held. (held_region held).dim ≡ k)`
    /// - ensures back: `IfErr result (λ refused. IsPermitOf self.now refused.0)`
    /// - ensures claimed: `IfOk result (λ held. WasClaimed (run_of (dim_of self.now) (held_region held)) (held_trail held))`
    /// - ensures refused: `IfErr result (λ refused. refused.1 ≡ false → WasRefused (dim_of self.now) k (permit_trail refused.0))`
    /// - ensures disturbed: `IfErr result (λ refused. refused.1 ≡ true → WasDisturbed (permit_trail refused.0))`
    /// - ensures alone: `IfErr result (λ refused. (words : List ℕ) → IsAlone (slice_index words) (permit_trail refused.0) → HasNoBlock (dim_of self.now) k words)`
    /// - ensures steps: `IfOk result (λ held. AreRightSteps (dim_of self.now) (held_trail held))`
    /// - ensures few: `IfOk result (λ held. length (held_trail held) ≤ exact_steps (dim_of self.now))`
    /// - ensures few_refused: `IfErr result (λ refused. length (permit_trail refused.0) ≤ exact_steps (dim_of self.now))`
    pub fn take_by_permit(
        &self,
        permit: Permit,
        k: u32,
        processor: u64,
    ) -> Result<HeldBlock, (Permit, bool)> {
        let Permit { mut seat } = permit;
        self.begin(&mut seat, self.word_near(processor));
        match self.take_by(&mut seat, k, processor) {
            Ok(region) => Ok(self.hold(seat, region)),
            Err(why) => Err((Permit { seat }, why.is_disturbed())),
        }
    }

    /// Releases a block. Returns its permit.
    #[inline(always)]
    ///
    /// # Clauses of the proved source
    ///
    /// - requires: `IsHeldByPermit self.now held`
    /// - ensures permit: `IsPermitOf self.now result`
    /// - ensures released: `WasReleased (run_of (dim_of self.now) (held_region held)) (held_trail held) (permit_trail result)`
    /// - ensures steps: `AreRightSteps (dim_of self.now) (held_trail held) → AreRightSteps (dim_of self.now) (permit_trail result)`
    /// - ensures few: `length (permit_trail result) ≤ length (held_trail held) + release_steps`
    pub fn release_to_permit(&self, held: HeldBlock) -> Permit {
        let HeldBlock {
            region,
            dim: _,
            mut seat,
        } = held;
        self.release_region(&mut seat, region);
        Permit { seat }
    }

    /// Opens a machine of dimension `n` in which nothing is held, with this many permits.
    ///
    /// # Clauses of the proved source
    ///
    /// - requires dim: `n ≤ MAX_BITMAP_DIM`
    /// - requires some: `0 < count`
    /// - ensures dim: `IfOk result (λ made. dim_of made.0 ≡ n)`
    /// - ensures permits: `IfOk result (λ made. permits_of made.0 ≡ count)`
    /// - ensures count: `IfOk result (λ made. length made.1.items ≡ count)`
    /// - ensures of_machine: `IfOk result (λ made. All (IsPermitOf made.0) made.1.items)`
    pub fn open_with_permits(
        alloc: Global,
        n: u32,
        count: u32,
    ) -> Result<(BitmapTree, Vec<Permit>), AllocError> {
        let mut permits = Vec::with_capacity(alloc, count as usize)?;
        let size = Size {
            dim: n,
            permits: count,
        };
        match BitmapTree::open_sized(alloc, size) {
            Ok((machine, seat)) => {
                machine.deal_all(seat, count, &mut permits);
                Ok((machine, permits))
            }
            Err(error) => {
                permits.destroy_empty();
                Err(error)
            }
        }
    }

    // Deals the permits out.
    fn deal_all(&self, mut seat: BlockSeat, count: u32, permits: &mut Vec<Permit>) {
        for _ in 0..count {
            let seat = self.deal(&mut seat);
            permits.push_reserved(Permit { seat });
        }
        drop(seat.leave());
    }

    /// Ends a machine of which all permits have come back. Nothing is held, and its words are as at
    /// the start.
    ///
    /// # Clauses of the proved source
    ///
    /// - requires of_machine: `All (IsPermitOf self) permits.items`
    /// - requires all: `length permits.items ≡ permits_of self`
    /// - requires some: `0 < permits_of self`
    /// - ensures count: `length result.items ≡ word_count (dim_of self)`
    /// - ensures fresh: `IsFresh result.items`
    pub fn close_with_permits(self, permits: Vec<Permit>) -> Vec<u64> {
        let seat = self.gather_all(permits);
        self.close_by(seat)
    }

    // Adds a permit to a seat that has claimed nothing.
    fn gather_one(&self, seat: &mut BlockSeat, permit: Permit) {
        let Permit { seat: other } = permit;
        self.merge(seat, other);
    }

    // Makes one seat of all permits.
    fn gather_all(&self, mut permits: Vec<Permit>) -> BlockSeat {
        let mut seat = self.enter(0);
        while let Some(permit) = permits.pop() {
            self.gather_one(&mut seat, permit);
        }
        permits.destroy_empty();
        seat
    }
}
