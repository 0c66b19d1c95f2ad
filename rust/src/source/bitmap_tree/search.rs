// Made from crates/bitmap_tree/src/search.rt by checks/lib/erase.py. Change that file.
//! The search of one word, of the words of a level by their marks, and of the levels above.

use crate::source::bitmap_tree::handles::BitmapTree;
use crate::source::bitmap_tree::layout::{block_at, first_word, words_in};
use crate::source::bitmap_tree::marks::{has_half, word_in};
use crate::source::bitmap_tree::mask::{WORD_DIM, fit_in, mask_of};
use crate::source::bitmap_tree::no_block::NoBlock;
use crate::source::bitmap_tree::steps::BlockSeat;
use crate::source::bitmap_tree::view::Run;
use crate::source::cube_shape::Region;

/// How many exchanges a call tries in one word before it gives the word up.
pub(crate) const TRIES: u32 = 8;

impl BitmapTree {
    // The number of bits of a word of a level that count.
    fn word_size(&self, level: u32) -> u32 {
        1 << (self.size.dim - 6 * level).min(WORD_DIM)
    }

    // The word of the lowest level around a processor. A call begins by a load of it, since it will
    // look there next, and other threads look elsewhere.
    #[inline(always)]
    pub(crate) fn word_near(&self, processor: u64) -> u32 {
        first_word(self.size.dim / 6) + (processor >> WORD_DIM) as u32
    }

    // Whether a level may have a free unit: by its marks, or by the word of the top level.
    fn has_unit(&self, level: u32) -> bool {
        if level < self.size.dim / 6 {
            !self.marks[level as usize].is_full(0)
        } else {
            self.peek(0).trailing_ones() < self.word_size(level)
        }
    }

    // Clears the marks of a word for the dimensions for which it has room.
    pub(crate) fn unmark(&self, level: u32, number: u32, word: u64) {
        if level < self.size.dim / 6 {
            self.marks[level as usize].unmark(number, word);
        }
    }

    // Marks a word in which a search found no room, unless it has room again.
    #[inline(never)]
    fn mark(&self, level: u32, number: u32, k: u32) {
        self.marks[level as usize].mark(k, number);
        let word = self.peek(first_word(self.size.dim / 6 - level) + number);
        self.unmark(level, number, word);
    }

    // Marks a word, of which a take of a block of dimension `k` left this, for the dimensions for
    // which it has no room now. If this is `k` alone it leaves that to the next search, since the
    // block may be back by then.
    #[inline(never)]
    fn mark_lost(&self, level: u32, number: u32, k: u32, left: u64) {
        if level >= self.size.dim / 6 {
            return;
        }
        if self.marks[level as usize].mark_lost(k, number, left) {
            let word = first_word(self.size.dim / 6 - level) + number;
            self.unmark(level, number, self.peek(word));
        }
    }

    // The next word of a level that has no mark for dimension `k`: the given one, if it has none.
    // Where the level above may have a free unit, it is the first of the group. Otherwise it is one
    // in which a block splits no larger one, if there is such a word near.
    #[inline(always)]
    fn next_word(&self, level: u32, k: u32, from: u32) -> u32 {
        let open = self.marks[level as usize].unmarked(k, from / 64);
        if (open >> (from % 64)) % 2 == 1 {
            return from;
        }
        if open != 0 && self.has_unit(level + 1) {
            return word_in(from / 64, open, from);
        }
        self.marks[level as usize].next(k, from)
    }

    // One exchange for the bits of a block of dimension `k` at an offset, where the word that was
    // found is clear. Returns what the exchange found.
    pub(crate) fn claim_in(
        &self,
        seat: &mut BlockSeat,
        word: u32,
        found: u64,
        offset: u32,
        k: u32,
    ) -> u64 {
        let said = Run {
            base: 64 * word as u64 + offset as u64,
            len: 1 << k,
        };
        self.claim(seat, word, found, found | mask_of(offset, k), &said)
    }

    // Takes a block of dimension `k` in a word of its level, which it gives up after `tries` lost
    // exchanges.
    // It and its callers are inlined: each would copy the block through memory, 25 of 76 ns.
    #[inline(always)]
    pub(crate) fn take_in(
        &self,
        seat: &mut BlockSeat,
        number: u32,
        k: u32,
        tries: u32,
    ) -> Result<Region, NoBlock> {
        let level = k / 6;
        let word = first_word(self.size.dim / 6 - level) + number;
        let mut found = self.load_word(seat, word);
        for _ in 0..tries {
            let Some(offset) = fit_in(found, self.word_size(level), k % 6) else {
                return Err(NoBlock::Full);
            };
            let now = self.claim_in(seat, word, found, offset, k % 6);
            if now == found {
                let left = found | mask_of(offset, k % 6);
                if !has_half(left) {
                    self.mark_lost(level, number, k % 6, left);
                }
                return Ok(Region {
                    base: (64 * number as u64 + offset as u64) << (6 * level),
                    dim: k,
                });
            }
            found = now;
        }
        Err(NoBlock::Disturbed)
    }

    // Takes a block of dimension `k` in the words of its level that have no mark, from one on. With
    // fewer than `TRIES` tries it ends at the first word that it gives up.
    #[inline(always)]
    fn take_marked(
        &self,
        seat: &mut BlockSeat,
        k: u32,
        from: u32,
        tries: u32,
    ) -> Result<Region, NoBlock> {
        let level = k / 6;
        let count = words_in(self.size.dim - 6 * level);
        let mut next = from;
        let mut why = NoBlock::Full;
        for _ in 0..count {
            let number = self.next_word(level, k % 6, next);
            if number >= count {
                return Err(why);
            }
            match self.take_in(seat, number, k, tries) {
                Ok(region) => return Ok(region),
                Err(NoBlock::Full) => self.mark(level, number, k % 6),
                Err(NoBlock::Disturbed) if tries < TRIES => return Err(NoBlock::Disturbed),
                Err(NoBlock::Disturbed) => {
                    why = NoBlock::Disturbed;
                    next = number + 1;
                }
            }
        }
        Err(why)
    }

    // Takes a block of dimension `k` in the open words of its level. It begins with the group of a
    // processor's word, and then goes over all groups. The top level is one word.
    #[inline(always)]
    fn take_here(
        &self,
        seat: &mut BlockSeat,
        k: u32,
        processor: u64,
        tries: u32,
    ) -> Result<Region, NoBlock> {
        if k / 6 >= self.size.dim / 6 {
            return self.take_in(seat, 0, k, tries);
        }
        let from = (processor >> (6 * (k / 6) + 6)) as u32;
        let why = match self.take_marked(seat, k, from, tries) {
            Ok(region) => return Ok(region),
            Err(why) => why,
        };
        let ends = why.is_disturbed() && tries < TRIES;
        if from < 64 || ends || self.marks[(k / 6) as usize].is_full(k % 6) {
            return Err(why);
        }
        match self.take_marked(seat, k, 0, tries) {
            Ok(region) => Ok(region),
            Err(more) => Err(why.and(more)),
        }
    }

    // Takes a unit of a level in its open words, if it may have one.
    fn take_unit(&self, seat: &mut BlockSeat, level: u32, processor: u64) -> Option<Region> {
        if !self.has_unit(level) {
            return None;
        }
        self.take_here(seat, 6 * level, processor, TRIES).ok()
    }

    // Takes a unit of a level above, the lowest first, and in it the first block of dimension `k`.
    #[inline(never)]
    fn take_above(&self, seat: &mut BlockSeat, k: u32, processor: u64) -> Option<Region> {
        for level in k / 6 + 1..self.size.dim / 6 + 1 {
            if let Some(unit) = self.take_unit(seat, level, processor) {
                return Some(self.descend_first(seat, unit, k));
            }
        }
        None
    }

    // Takes the unit around a processor one level up, where it is free, and in it the first block
    // of dimension `k`.
    fn take_own(&self, seat: &mut BlockSeat, k: u32, processor: u64) -> Option<Region> {
        if k / 6 >= self.size.dim / 6 {
            return None;
        }
        let unit = block_at(processor, 6 * (k / 6) + 6);
        match self.take_block(seat, unit, 1) {
            Ok(()) => Some(self.descend_first(seat, unit, k)),
            Err(_) => None,
        }
    }

    // Takes a block of dimension `k` after a lost exchange: in a unit of its own. If that is not
    // free, it goes over the words of its level again, and at last to the levels above.
    #[cold]
    fn take_elsewhere(&self, seat: &mut BlockSeat, k: u32, processor: u64) -> Option<Region> {
        if let Some(region) = self.take_own(seat, k, processor) {
            return Some(region);
        }
        if let Ok(region) = self.take_here(seat, k, processor, TRIES) {
            return Some(region);
        }
        self.take_above(seat, k, processor)
    }

    // Takes a block of dimension `k` by a seat with an empty run: in its level, and else in a unit
    // of a level above.
    pub(crate) fn take_region(&self, seat: &mut BlockSeat, k: u32, processor: u64) -> Option<Region> {
        match self.take_here(seat, k, processor, 1) {
            Ok(region) => Some(region),
            Err(NoBlock::Disturbed) => self.take_elsewhere(seat, k, processor),
            Err(NoBlock::Full) => self.take_above(seat, k, processor),
        }
    }
}
