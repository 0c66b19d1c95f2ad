//! The calls of the lock-free allocator of blocks, over the erased sources.
//!
//! A handle says whether it is open, and a block's handle of which machine it is. The clauses ask
//! only that machines have different numbers, which [`open`] gives them.

use crate::source::bitmap_tree::HiddenSeat;
use crate::source::cubejobs_regions as source;
use crate::source::cubejobs_regions::tag::tag_of;
use crate::source::kit::alloc::Global;
use crate::source::kit::opaque::Opaque;
use crate::Region;
use core::sync::atomic::{AtomicU64, Ordering::SeqCst};

pub use crate::source::bitmap_occupancy::FREE_PLACES;
pub use crate::source::cubejobs_regions::codes::{
    BAD_BASE, BAD_DIMENSION, NOT_NOW, NO_ROOM, OUT_OF_MEMORY, TAKEN,
};
pub use crate::source::cubejobs_regions::{Answer, BlockHandle, Handle, OccupancyAnswer as Occupancy, DONE};

pub const MAX_DIM: u32 = crate::source::cube_shape::MAX_BITMAP_DIM;

/// The number of the next machine.
static NEXT: AtomicU64 = AtomicU64::new(1);

impl Handle {
    pub const SHUT: Handle = Handle { tag: 0, ptr: Opaque::nothing(Global), seat: HiddenSeat::blank() };

    /// Returns whether this handle was not opened.
    pub fn is_shut(&self) -> bool {
        !self.is_open()
    }
}

impl BlockHandle {
    pub const EMPTY: BlockHandle = BlockHandle { tag: 0, machine: 0, seat: HiddenSeat::blank() };

    /// Makes the handle of a block that is held, and that no other handle holds. The machine is of
    /// this dimension and number.
    pub fn of_held(region: Region, dim: u32, machine: u64) -> BlockHandle {
        let region = crate::source::cube_shape::Region { base: region.base, dim: region.dim };
        BlockHandle { tag: tag_of(region, dim), machine, ..BlockHandle::EMPTY }
    }

    /// Returns whether it has held nothing yet, or a call has emptied it.
    pub fn is_empty(&self) -> bool {
        self.tag == 0
    }
}

impl Answer {
    pub fn code(self) -> u32 {
        self.code.into()
    }

    pub fn dim(self) -> u32 {
        self.dim.into()
    }
}

/// Opens a machine. Returns its number, or the code of the refusal.
pub fn open(thread: &mut Handle, dim: u32) -> Result<u64, u32> {
    let number = NEXT.fetch_add(1, SeqCst);
    match source::cubejobs_regions_open_version(thread, source::VERSION, dim, number) {
        DONE => Ok(number),
        code => Err(code),
    }
}

pub fn share(thread: &mut Handle, other: &mut Handle) -> u32 {
    source::cubejobs_regions_share(thread, other)
}

pub fn take(thread: &mut Handle, block: &mut BlockHandle, k: u32) -> Answer {
    source::cubejobs_regions_take(thread, block, k)
}

pub fn take_exact(thread: &mut Handle, block: &mut BlockHandle, k: u32) -> Answer {
    source::cubejobs_regions_take_exact(thread, block, k)
}

pub fn take_at(thread: &mut Handle, block: &mut BlockHandle, base: u64, k: u32) -> Answer {
    source::cubejobs_regions_take_at(thread, block, base, k)
}

pub fn split(thread: &mut Handle, block: &mut BlockHandle, half: &mut BlockHandle) -> u32 {
    source::cubejobs_regions_split(thread, block, half)
}

pub fn join(thread: &mut Handle, block: &mut BlockHandle, half: &mut BlockHandle) -> u32 {
    source::cubejobs_regions_join(thread, block, half)
}

pub fn release(thread: &mut Handle, block: &mut BlockHandle) -> u32 {
    source::cubejobs_regions_release(thread, block)
}

pub fn block(block: &BlockHandle) -> Answer {
    source::cubejobs_regions_block(block)
}

pub fn occupancy(thread: &mut Handle) -> Occupancy {
    source::cubejobs_regions_occupancy(thread)
}

pub fn free(thread: &mut Handle) -> u32 {
    source::cubejobs_regions_free(thread)
}

#[cfg(all(test, feature = "std"))]
impl BlockHandle {
    pub fn words(&self) -> [u64; 2] {
        [self.tag, self.machine]
    }
}
