// Made from crates/cubejobs_regions/src/owner.rt by checks/lib/erase.py. Change that file.
//! What a handle shows of its machine.

use crate::source::cubejobs_regions::common::Common;
use crate::source::cubejobs_regions::machine::Machine;
use crate::source::bitmap_tree::BitmapTree;

impl Machine {
    // Returns what its handles have in common.
    #[inline(always)]
    pub(crate) fn common(&self) -> &Common {
        self.owner.get()
    }

    // Returns its bitmaps.
    #[inline(always)]
    pub(crate) fn tree(&self) -> &BitmapTree {
        &self.owner.get().tree
    }

    // Returns its number.
    #[inline(always)]
    pub(crate) fn number(&self) -> u64 {
        self.owner.get().number
    }
}
