// Made from crates/bitmap_tree/src/block_takes.rt by checks/lib/erase.py. Change that file.
//! Takes of one block that is named, and of the blocks on the way down to it.

use crate::source::bitmap_tree::handles::BitmapTree;
use crate::source::bitmap_tree::layout::{block_at, first_word};
use crate::source::bitmap_tree::mask::mask_of;
use crate::source::bitmap_tree::no_block::NoBlock;
use crate::source::bitmap_tree::search::TRIES;
use crate::source::bitmap_tree::steps::BlockSeat;
use crate::source::bitmap_tree::view::Run;
use crate::source::cube_shape::Region;

impl BitmapTree {
    // Takes one block in its word, which it gives up after `tries` lost exchanges.
    pub(crate) fn take_block(
        &self,
        seat: &mut BlockSeat,
        block: Region,
        tries: u32,
    ) -> Result<(), NoBlock> {
        let level = block.dim / 6;
        let place = block.base >> (6 * level);
        let word = first_word(self.size.dim / 6 - level) + (place / 64) as u32;
        let offset = (place % 64) as u32;
        let mask = mask_of(offset, block.dim % 6);
        let mut found = self.load_word(seat, word);
        for _ in 0..tries {
            if found & mask != 0 {
                return Err(NoBlock::Full);
            }
            let now = self.claim_in(seat, word, found, offset, block.dim % 6);
            if now == found {
                return Ok(());
            }
            found = now;
        }
        Err(NoBlock::Disturbed)
    }

    // Opens the word under a unit that the seat has, and keeps one block of it.
    fn open_under(&self, seat: &mut BlockSeat, unit: Region, block: Region) {
        let level = block.dim / 6;
        let place = block.base >> (6 * level);
        let number = (place / 64) as u32;
        let word = first_word(self.size.dim / 6 - level) + number;
        let said = Run {
            base: 64 * word as u64 + place % 64,
            len: 1 << (block.dim % 6),
        };
        let mask = mask_of((place % 64) as u32, block.dim % 6);
        self.open_word(seat, word, mask, &said);
        self.unmark(level, number, mask);
    }

    // Opens the words from a unit down to a block of it, which the seat then has.
    pub(crate) fn descend(&self, seat: &mut BlockSeat, unit: Region, block: Region) {
        let top = unit.dim / 6;
        let mut upper = unit;
        for down in 1..top - block.dim / 6 {
            let next = block_at(block.base, 6 * (top - down));
            self.open_under(seat, upper, next);
            upper = next;
        }
        self.open_under(seat, upper, block);
    }

    // Opens the words from a unit down to its first block of dimension `k`, which the seat then
    // has.
    pub(crate) fn descend_first(&self, seat: &mut BlockSeat, unit: Region, k: u32) -> Region {
        let block = Region {
            base: unit.base,
            dim: k,
        };
        self.descend(seat, unit, block);
        block
    }

    // Takes one block: in its word, and else from the unit around it in a level above, the lowest
    // first.
    pub(crate) fn take_path(&self, seat: &mut BlockSeat, block: Region) -> Result<(), NoBlock> {
        let mut why = NoBlock::Full;
        for level in block.dim / 6..self.size.dim / 6 + 1 {
            let unit = block_at(block.base, block.dim.max(6 * level));
            match self.take_block(seat, unit, TRIES) {
                Ok(()) => {
                    self.descend_to(seat, unit, block, level);
                    return Ok(());
                }
                Err(more) => why = why.and(more),
            }
        }
        Err(why)
    }

    // Opens the words from a unit down to a block of it, unless the unit is the block.
    fn descend_to(&self, seat: &mut BlockSeat, unit: Region, block: Region, level: u32) {
        if block.dim / 6 >= unit.dim / 6 {
            return;
        }
        self.descend(seat, unit, block);
    }
}
