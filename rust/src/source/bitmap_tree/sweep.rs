// Made from crates/bitmap_tree/src/sweep.rt by checks/lib/erase.py. Change that file.
//! The words that are open and empty are shut, so that their units are whole again.

use crate::source::bitmap_tree::handles::BitmapTree;
use crate::source::bitmap_tree::layout::{first_word, words_in};
use crate::source::bitmap_tree::steps::BlockSeat;
use crate::source::cube_shape::Region;

impl BitmapTree {
    // Shuts a word of a level where it is empty, and releases its unit.
    fn shut_empty(&self, seat: &mut BlockSeat, level: u32, number: u32) {
        let word = first_word(self.size.dim / 6 - level) + number;
        if self.load_word(seat, word) != 0 {
            return;
        }
        match self.shut_unit(seat, level, number) {
            Some(unit) => self.release_region(seat, unit),
            None => {}
        }
    }

    // Shuts the empty ones of these words of a level.
    fn sweep_level(&self, seat: &mut BlockSeat, level: u32, first: u32, count: u32) {
        for number in first..first + count {
            self.shut_empty(seat, level, number);
        }
    }

    // Shuts the empty words under a block, of the levels below one: the lowest level first.
    pub(crate) fn sweep(&self, seat: &mut BlockSeat, block: Region, limit: u32) {
        for level in 0..limit {
            let first = (block.base >> (6 * level + 6)) as u32;
            let count = words_in(block.dim - 6 * level);
            self.sweep_level(seat, level, first, count);
        }
    }
}
