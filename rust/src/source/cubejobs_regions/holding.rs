// Made from crates/cubejobs_regions/src/holding.rt by checks/lib/erase.py. Change that file.
//! A held block goes into a handle of C's and comes out again.

use crate::source::cubejobs_regions::block_handle::BlockHandle;
use crate::source::cubejobs_regions::codes::{DONE, HOLDS_ALREADY, OPEN, OTHER_KIND};
use crate::source::cubejobs_regions::tag::{dim_at, holds, region_at, tag_of};
use crate::source::bitmap_tree::{BlankSeat, HeldBlock, HiddenSeat};
use core::mem::replace;

impl BlockHandle {
    // Makes a handle that holds nothing.
    #[inline(always)]
    pub(crate) fn empty() -> BlockHandle {
        BlockHandle {
            tag: 0,
            machine: 0,
            seat: HiddenSeat::blank(),
        }
    }

    // Makes the handle of a held block, of a machine of this number.
    #[inline(always)]
    pub(crate) fn of(held: HeldBlock, machine: u64) -> BlockHandle {
        let (region, dim, seat) = held.into_parts();
        BlockHandle {
            tag: tag_of(region, dim),
            machine,
            seat: HiddenSeat::of(seat),
        }
    }

    // Lets an empty handle go.
    #[inline(always)]
    fn leave(self) {
        let BlockHandle {
            tag: _,
            machine: _,
            seat,
        } = self;
        seat.leave();
    }

    // Puts a held block into an empty handle, of a machine of this number.
    #[inline(always)]
    pub(crate) fn put(&mut self, held: HeldBlock, machine: u64) {
        replace(self, BlockHandle::of(held, machine)).leave();
    }

    // Returns whether it holds a block.
    #[inline(always)]
    pub(crate) fn is_held(&self) -> bool {
        holds(self.tag)
    }

    // Takes the held block out. There must be one.
    #[inline(always)]
    pub(crate) fn take(&mut self) -> HeldBlock {
        let tag = self.tag;
        self.tag = 0;
        let seat = replace(&mut self.seat, HiddenSeat::blank());
        HeldBlock::of_parts(region_at(tag), dim_at(tag), seat.into_seat())
    }

    // Keeps the seat of a call in an empty handle, and so what its steps found. No bytes change.
    #[inline(always)]
    pub(crate) fn keep(&mut self, seat: BlankSeat) {
        let last = HiddenSeat::of(seat.into_block_seat());
        replace(&mut self.seat, last).leave();
    }

    // Returns why no block can be put into it, or `DONE`.
    #[inline(always)]
    pub(crate) fn refusal(&self) -> u32 {
        if self.tag == OPEN {
            return OTHER_KIND;
        }
        if self.is_held() { HOLDS_ALREADY } else { DONE }
    }
}
