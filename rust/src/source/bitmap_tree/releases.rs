// Made from crates/bitmap_tree/src/releases.rt by checks/lib/erase.py. Change that file.
//! Releases of blocks, and the units that become whole by them.

use crate::source::bitmap_tree::handles::{BitmapTree, HeldBlock, Released};
use crate::source::bitmap_tree::layout::{first_word, words_in};
use crate::source::bitmap_tree::marks::has_half;
use crate::source::bitmap_tree::mask::mask_of;
use crate::source::bitmap_tree::spares::SPARES;
use crate::source::bitmap_tree::steps::BlockSeat;
use crate::source::bitmap_tree::takes::rest;
use crate::source::bitmap_tree::view::Run;
use crate::source::cube_shape::Region;

impl BitmapTree {
    // Clears the bits of a block: whether its word is then empty.
    fn clear_region(&self, seat: &mut BlockSeat, region: Region) -> bool {
        let level = region.dim / 6;
        let place = region.base >> (6 * level);
        let word = first_word(self.size.dim / 6 - level) + (place / 64) as u32;
        let mask = mask_of((place % 64) as u32, region.dim % 6);
        let found = self.clear_run(seat, word, mask);
        if !has_half(found) {
            self.unmark(level, (place / 64) as u32, found & !mask);
        }
        found == mask
    }

    // Shuts a word of a level where it is empty: the unit over it, which the seat then has.
    pub(crate) fn shut_unit(&self, seat: &mut BlockSeat, level: u32, number: u32) -> Option<Region> {
        let word = first_word(self.size.dim / 6 - level) + number;
        let said = Run {
            base: word as u64 - 1,
            len: 1,
        };
        if self.shut(seat, word, &said) != 0 {
            return None;
        }
        Some(Region {
            base: (number as u64) << (6 * level + 6),
            dim: 6 * level + 6,
        })
    }

    // Clears the bits of a block. A word that becomes empty stays open as the spare of its level,
    // and the spare before it is shut, if it is still empty. Returns the unit of that one, which
    // the seat then has.
    fn release_once(&self, seat: &mut BlockSeat, region: Region) -> Option<Region> {
        let level = region.dim / 6;
        let empty = self.clear_region(seat, region);
        if !empty || level >= self.size.dim / 6 {
            return None;
        }
        let number = (region.base >> (6 * level + 6)) as u32;
        let Some(other) = self.spares.keep(level, number) else {
            return None;
        };
        if other >= words_in(self.size.dim - 6 * level) {
            return None;
        }
        self.shut_unit(seat, level, other)
    }

    // Releases a block, and each unit that becomes whole by it.
    pub(crate) fn release_region(&self, seat: &mut BlockSeat, region: Region) {
        let Some(unit) = self.release_once(seat, region) else {
            return;
        };
        let mut given = unit;
        for level in region.dim / 6 + 1..self.size.dim / 6 + 1 {
            match self.release_once(seat, given) {
                Some(unit) => given = unit,
                None => return,
            }
        }
    }

    // Shuts the spare at a place of a level: whether it did.
    fn shut_spare(&self, seat: &mut BlockSeat, level: u32, place: u32) -> bool {
        let Some(number) = self.spares.drain(level, place) else {
            return false;
        };
        if number >= words_in(self.size.dim - 6 * level) {
            return false;
        }
        match self.shut_unit(seat, level, number) {
            Some(unit) => {
                self.release_region(seat, unit);
                true
            }
            None => false,
        }
    }

    // Shuts the spares of the levels below one, the lowest first: whether it shut any.
    #[inline(never)]
    pub(crate) fn shut_spares(&self, seat: &mut BlockSeat, level: u32) -> bool {
        let mut shut = false;
        for spare in 0..SPARES * level {
            shut |= self.shut_spare(seat, spare / SPARES, spare % SPARES);
        }
        shut
    }

    /// Releases a block. Any thread may call it. What it returns says what its steps changed, and
    /// may be dropped.
    ///
    /// # Clauses of the proved source
    ///
    /// - requires: `IsHeldOf self.now held`
    /// - ensures released: `WasReleased (run_of (dim_of self.now) (held_region held)) (held_trail held) (released_trail result)`
    /// - ensures steps: `AreRightSteps (dim_of self.now) (held_trail held) → AreRightSteps (dim_of self.now) (released_trail result)`
    /// - ensures few: `length (released_trail result) ≤ length (held_trail held) + release_steps`
    pub fn release(&self, held: HeldBlock) -> Released {
        let HeldBlock {
            region,
            dim: _,
            mut seat,
        } = held;
        self.release_region(&mut seat, region);
        Released { seat: rest(seat) }
    }
}
