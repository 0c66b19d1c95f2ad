// Made from crates/bitmap_tree/src/scan.rt by checks/lib/erase.py. Change that file.
//! The search that looks at each word, so that a refusal has evidence.

use crate::source::bitmap_tree::handles::BitmapTree;
use crate::source::bitmap_tree::layout::words_in;
use crate::source::bitmap_tree::no_block::NoBlock;
use crate::source::bitmap_tree::search::TRIES;
use crate::source::bitmap_tree::steps::BlockSeat;
use crate::source::cube_shape::Region;

impl BitmapTree {
    // Takes a block of dimension `k` in the words of its level, one after another.
    fn take_words(&self, seat: &mut BlockSeat, k: u32) -> Result<Region, NoBlock> {
        let mut why = NoBlock::Full;
        for number in 0..words_in(self.size.dim - 6 * (k / 6)) {
            match self.take_in(seat, number, k, TRIES) {
                Ok(region) => return Ok(region),
                Err(more) => why = why.and(more),
            }
        }
        Err(why)
    }

    // Takes a block of dimension `k`, and looks at each word of its level and of those above.
    pub(crate) fn take_scanned(&self, seat: &mut BlockSeat, k: u32) -> Result<Region, NoBlock> {
        let mut why = NoBlock::Full;
        for level in k / 6..self.size.dim / 6 + 1 {
            match self.take_words(seat, k.max(6 * level)) {
                Ok(unit) => {
                    if level == k / 6 {
                        return Ok(unit);
                    }
                    return Ok(self.descend_first(seat, unit, k));
                }
                Err(more) => why = why.and(more),
            }
        }
        Err(why)
    }
}
