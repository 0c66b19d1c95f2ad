// Made from crates/bitmap_tree/src/takes.rt by checks/lib/erase.py. Change that file.
//! Takes: by the marks, with evidence where they refuse, and of one block that is named.

use crate::source::bitmap_tree::handles::{BitmapTree, HeldBlock, Refused};
use crate::source::bitmap_tree::no_block::NoBlock;
use crate::source::bitmap_tree::steps::{BlankSeat, BlockSeat};
use crate::source::cube_shape::Region;

// Lets a seat with an empty run go.
pub(crate) fn rest(seat: BlockSeat) -> BlankSeat {
    seat.leave()
}

// Makes a refusal of a seat with an empty run.
fn refuse(seat: BlockSeat, why: NoBlock) -> Refused {
    Refused {
        disturbed: why.is_disturbed(),
        seat: rest(seat),
    }
}

impl BitmapTree {
    // Takes a block by the marks, by a seat with an empty run.
    #[inline(always)]
    fn search_by_marks(&self, seat: &mut BlockSeat, k: u32, processor: u64) -> Option<Region> {
        if let Some(region) = self.take_region(seat, k, processor) {
            return Some(region);
        }
        if !self.shut_spares(seat, k / 6) {
            return None;
        }
        self.take_region(seat, k, processor)
    }

    /// Takes an aligned block of dimension `k`, by a search that begins near a processor.
    ///
    /// It passes words with a mark by, so a refusal says only what its steps found and left.
    ///
    /// # Clauses of the proved source
    ///
    /// - requires anyone: `permits_of self.now ≡ 0`
    /// - requires fits: `k ≤ dim_of self.now`
    /// - requires processor: `processor < 2 ^ dim_of self.now`
    /// - ensures of_machine: `IfOk result (IsHeldOf self.now)`
    /// - ensures aligned: `IfOk result (λ held. IsAligned (dim_of self.now) (held_region held))`
    /// - ensures dimension: `IfOk result (λ held. (held_region held).dim ≡ k)`
    /// - ensures claimed: `IfOk result (λ held. WasClaimed (run_of (dim_of self.now) (held_region held)) (held_trail held))`
    /// - ensures steps: `IfOk result (λ held. AreRightSteps (dim_of self.now) (held_trail held))`
    /// - ensures few: `IfOk result (λ held. length (held_trail held) ≤ take_steps (dim_of self.now))`
    /// - ensures few_refused: `IfErr result (λ seat. length seat.me.0.trail ≤ take_steps (dim_of self.now))`
    pub fn take(&self, k: u32, processor: u64) -> Result<HeldBlock, BlankSeat> {
        let mut seat = self.enter(self.word_near(processor));
        match self.search_by_marks(&mut seat, k, processor) {
            Some(region) => Ok(self.hold(seat, region)),
            None => Err(rest(seat)),
        }
    }

    // Takes a block after the marks gave none. It shuts the empty words below the level of the
    // dimension. Then it looks at each word of this level and of those above.
    #[cold]
    fn search_each_word(&self, seat: &mut BlockSeat, k: u32) -> Result<Region, NoBlock> {
        let whole = Region {
            base: 0,
            dim: self.size.dim,
        };
        self.sweep(seat, whole, k / 6);
        match self.take_scanned(seat, k) {
            Ok(region) => Ok(region),
            Err(why) => Err(why),
        }
    }

    // Takes a block: by the marks, and else by a look at each word.
    #[inline(always)]
    pub(crate) fn take_by(
        &self,
        seat: &mut BlockSeat,
        k: u32,
        processor: u64,
    ) -> Result<Region, NoBlock> {
        match self.search_by_marks(seat, k, processor) {
            Some(region) => Ok(region),
            None => self.search_each_word(seat, k),
        }
    }

    // Makes a held block of a block that a seat has taken.
    #[inline(always)]
    pub(crate) fn hold(&self, seat: BlockSeat, region: Region) -> HeldBlock {
        HeldBlock {
            region,
            dim: self.size.dim,
            seat,
        }
    }

    /// Takes an aligned block of dimension `k` as `take` does, and looks at each word before it
    /// refuses.
    ///
    /// Where no word was given up after lost exchanges, a refusal has evidence. Of each block of
    /// the dimension a step of this call found a bit set, and so of each unit of each level above.
    /// And if no other call made a step, no block of the dimension is free.
    ///
    /// # Clauses of the proved source
    ///
    /// - requires anyone: `permits_of self.now ≡ 0`
    /// - requires fits: `k ≤ dim_of self.now`
    /// - requires processor: `processor < 2 ^ dim_of self.now`
    /// - ensures of_machine: `IfOk result (IsHeldOf self.now)`
    /// - ensures aligned: `IfOk result (λ held. IsAligned (dim_of self.now) (held_region held))`
    /// - ensures dimension: `IfOk result (λ held. (held_region held).dim ≡ k)`
    /// - ensures claimed: `IfOk result (λ held. WasClaimed (run_of (dim_of self.now) (held_region held)) (held_trail held))`
    /// - ensures refused: `IfErr result (λ refused. refused.disturbed ≡ false → WasRefused (dim_of self.now) k (refused_trail refused))`
    /// - ensures disturbed: `IfErr result (λ refused. refused.disturbed ≡ true → WasDisturbed (refused_trail refused))`
    /// - ensures alone: `IfErr result (λ refused. (words : List ℕ) → IsAlone (slice_index words) (refused_trail refused) → HasNoBlock (dim_of self.now) k words)`
    /// - ensures steps: `IfOk result (λ held. AreRightSteps (dim_of self.now) (held_trail held))`
    /// - ensures few: `IfOk result (λ held. length (held_trail held) ≤ exact_steps (dim_of self.now))`
    /// - ensures few_refused: `IfErr result (λ refused. length (refused_trail refused) ≤ exact_steps (dim_of self.now))`
    pub fn take_exact(&self, k: u32, processor: u64) -> Result<HeldBlock, Refused> {
        let mut seat = self.enter(self.word_near(processor));
        match self.take_by(&mut seat, k, processor) {
            Ok(region) => Ok(self.hold(seat, region)),
            Err(why) => Err(refuse(seat, why)),
        }
    }

    // Takes one block by a seat with an empty run: a second time once the empty words under it are
    // shut.
    fn take_named(&self, seat: &mut BlockSeat, block: Region) -> Result<(), NoBlock> {
        if let Ok(()) = self.take_path(seat, block) {
            return Ok(());
        }
        self.sweep(seat, block, block.dim / 6);
        match self.take_path(seat, block) {
            Ok(()) => Ok(()),
            Err(why) => Err(why),
        }
    }

    /// Takes one block, where it is free. It opens words above the block as it needs them, and
    /// shuts empty words below.
    ///
    /// Where no word was given up after lost exchanges, a refusal has evidence. A step of this call
    /// found a bit of the block set, and the bit of the unit around it in each level above. And if
    /// no other call made a step, a part of the block is held.
    ///
    /// # Clauses of the proved source
    ///
    /// - requires anyone: `permits_of self.now ≡ 0`
    /// - requires aligned: `IsAligned (dim_of self.now) block`
    /// - ensures of_machine: `IfOk result (IsHeldOf self.now)`
    /// - ensures region: `IfOk result (λ held. held_region held ≡ block)`
    /// - ensures claimed: `IfOk result (λ held. WasClaimed (run_of (dim_of self.now) block) (held_trail held))`
    /// - ensures refused: `IfErr result (λ refused. refused.disturbed ≡ false → WasBlockTaken (dim_of self.now) block (refused_trail refused))`
    /// - ensures disturbed: `IfErr result (λ refused. refused.disturbed ≡ true → WasDisturbed (refused_trail refused))`
    /// - ensures alone: `IfErr result (λ refused. (words : List ℕ) → IsAlone (slice_index words) (refused_trail refused) → IsInUse (dim_of self.now) words block)`
    /// - ensures steps: `IfOk result (λ held. AreRightSteps (dim_of self.now) (held_trail held))`
    /// - ensures few: `IfOk result (λ held. length (held_trail held) ≤ block_steps (dim_of self.now))`
    /// - ensures few_refused: `IfErr result (λ refused. length (refused_trail refused) ≤ block_steps (dim_of self.now))`
    pub fn take_at(&self, block: Region) -> Result<HeldBlock, Refused> {
        let mut seat = self.enter(self.word_near(block.base));
        match self.take_named(&mut seat, block) {
            Ok(()) => Ok(self.hold(seat, block)),
            Err(why) => Err(refuse(seat, why)),
        }
    }
}
