// Made from crates/bitmap_tree/src/ends.rt by checks/lib/erase.py. Change that file.
//! The end of a machine.

use crate::source::kit::prelude::{Vec};

use crate::source::bitmap_tree::handles::{BitmapTree, HeldBlock};
use crate::source::bitmap_tree::mask::mask_of;
use crate::source::bitmap_tree::steps::BlockSeat;
use crate::source::cube_shape::MAX_BITMAP_DIM;

// Shuts a word where it is 0, and clears the bit of its unit.
fn shut_word(n: u32, words: &mut Vec<u64>, word: usize) {
    if words[word] != 0 {
        return;
    }
    let above = (word - 1) / 64;
    let mask = mask_of(((word - 1) % 64) as u32, 0);
    words[word] = u64::MAX;
    let kept = words[above] & !mask;
    words[above] = kept;
}

// Shuts each word that is 0 except the first, the last one first.
fn shut_all(n: u32, words: &mut Vec<u64>) {
    let count = words.len();
    for past in 1..count {
        shut_word(n, words, count - past);
    }
}

impl BitmapTree {
    /// Ends the machine, with these blocks held in it. Returns its words, once those that are 0 are
    /// shut.
    ///
    /// They are the words of a state that meets the rule, in which each block that comes in is
    /// held. Where no bit is held, they are the words of a machine in which nothing was ever taken.
    ///
    /// # Clauses of the proved source
    ///
    /// - requires: `All (IsHeldOf self) held.items`
    /// - ensures: `AreEnded (dim_of self) held.items result.items`
    pub fn close(self, held: Vec<HeldBlock>) -> Vec<u64> {
        let seat = self.gather_blocks(held);
        self.close_by(seat)
    }

    // Ends the machine by a seat. Its words are those of a state in which the runs of the seat are
    // held, and perhaps others.
    pub(crate) fn close_by(self, seat: BlockSeat) -> Vec<u64> {
        let BitmapTree {
            bits,
            size,
            marks: _,
            spares: _,
            room,
        } = self;
        let mut words = bits.end(seat, room);
        shut_all(size.dim, &mut words);
        words
    }

    // Makes one seat of those of held blocks.
    fn gather_blocks(&self, mut held: Vec<HeldBlock>) -> BlockSeat {
        let mut seat = self.enter(0);
        while let Some(block) = held.pop() {
            self.gather_block(&mut seat, block);
        }
        held.destroy_empty();
        seat
    }

    // Adds the run of a held block to those of a seat.
    fn gather_block(&self, seat: &mut BlockSeat, block: HeldBlock) {
        let HeldBlock {
            region: _,
            dim: _,
            seat: other,
        } = block;
        self.merge(seat, other);
    }
}
