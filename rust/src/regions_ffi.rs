//! The functions of `include/cubejobs_regions.h`, the lock-free library for any number of blocks.
//!
//! Each function here takes its handles by `&mut`. A handle is shut or empty when it is made, and
//! its fields are private. So the calls with one handle come one at a time, and only the library
//! writes to it. [`BlockHandle::of_held`] alone makes a handle that holds a block: one that the
//! library has filled before, with the same bytes.

use crate::Region;
use core::mem::size_of;
use core::ptr;
use core::sync::atomic::{AtomicU64, Ordering::SeqCst};

pub const VERSION: u32 = 3;
pub const MAX_DIM: u32 = 20;
pub const FREE_PLACES: usize = 21;

pub const DONE: u32 = 0;
pub const NO_ROOM: u32 = 1;
pub const NOT_NOW: u32 = 2;
pub const BAD_DIMENSION: u32 = 3;
pub const BAD_BASE: u32 = 4;
pub const TAKEN: u32 = 5;
pub const OUT_OF_MEMORY: u32 = 11;

/// The upper half of the tag of a handle that holds a block: `HELD` of `cubejobs_regions`.
const HELD: u64 = 0x7265_6769;

/// The number of the next machine. No other machine of the program has it: those of C begin at 1.
static NEXT: AtomicU64 = AtomicU64::new(1 << 63);

/// A handle of a machine. It cannot be cloned or copied.
#[repr(C)]
pub struct Handle {
    tag: u64,
    at: *mut u8,
}

impl Handle {
    pub const SHUT: Handle = Handle { tag: 0, at: ptr::null_mut() };

    /// Returns whether the library has not opened this handle.
    pub fn is_shut(&self) -> bool {
        self.tag == 0
    }
}

// SAFETY: what a handle owns may go to another thread. This is proved of the library's own type.
unsafe impl Send for Handle {}
// SAFETY: by a shared reference a thread only reads the tag. A call of the library needs a `&mut`.
unsafe impl Sync for Handle {}

/// A handle of a block. It cannot be cloned or copied.
#[repr(C)]
pub struct BlockHandle {
    tag: u64,
    machine: u64,
}

impl BlockHandle {
    pub const EMPTY: BlockHandle = BlockHandle { tag: 0, machine: 0 };

    /// Makes the handle of a block that is held, and that no other handle holds. The machine is of
    /// this dimension and number.
    pub fn of_held(region: Region, dim: u32, machine: u64) -> BlockHandle {
        let place = (HELD << MAX_DIM) + region.base;
        let tag = (place * 64 + u64::from(region.dim)) * 64 + u64::from(dim);
        BlockHandle { tag, machine }
    }

    /// Returns whether it has held nothing yet, or a call has emptied it.
    pub fn is_empty(&self) -> bool {
        self.tag == 0
    }
}

#[repr(C)]
#[derive(Clone, Copy)]
pub struct Answer {
    code: u16,
    dim: u16,
    pub contended: u32,
    pub base: u64,
}

impl Answer {
    pub fn code(self) -> u32 {
        self.code.into()
    }

    pub fn dim(self) -> u32 {
        self.dim.into()
    }
}

#[repr(C)]
#[derive(Clone, Copy)]
pub struct Occupancy {
    pub code: u32,
    pub largest: u32,
    pub has_free: bool,
    pub held: u64,
    pub free: [u64; FREE_PLACES],
}

// The sizes that the library was compiled with.
const _: () = assert!(size_of::<Handle>() == 16 && size_of::<BlockHandle>() == 16);
const _: () = assert!(size_of::<Answer>() == 16);

#[link(name = "cubejobs_regions", kind = "static")]
unsafe extern "C" {
    fn cubejobs_regions_open_version(thread: &mut Handle, version: u32, dim: u32, number: u64) -> u32;
    fn cubejobs_regions_share(thread: &mut Handle, other: &mut Handle) -> u32;
    fn cubejobs_regions_take(thread: &mut Handle, block: &mut BlockHandle, k: u32) -> Answer;
    fn cubejobs_regions_take_exact(thread: &mut Handle, block: &mut BlockHandle, k: u32) -> Answer;
    fn cubejobs_regions_take_at(thread: &mut Handle, block: &mut BlockHandle, base: u64, k: u32) -> Answer;
    fn cubejobs_regions_split(thread: &mut Handle, block: &mut BlockHandle, half: &mut BlockHandle) -> u32;
    fn cubejobs_regions_join(thread: &mut Handle, block: &mut BlockHandle, half: &mut BlockHandle) -> u32;
    fn cubejobs_regions_release(thread: &mut Handle, block: &mut BlockHandle) -> u32;
    fn cubejobs_regions_block(block: &BlockHandle) -> Answer;
    fn cubejobs_regions_occupancy(thread: &mut Handle) -> Occupancy;
    fn cubejobs_regions_free(thread: &mut Handle) -> u32;
}

/// Opens a machine. Returns its number, or the code of the refusal.
pub fn open(thread: &mut Handle, dim: u32) -> Result<u64, u32> {
    let number = NEXT.fetch_add(1, SeqCst);
    // SAFETY: the reference is to a whole handle. Only the library has written to it since it was
    // made. No other machine has this number.
    match unsafe { cubejobs_regions_open_version(thread, VERSION, dim, number) } {
        DONE => Ok(number),
        code => Err(code),
    }
}

pub fn share(thread: &mut Handle, other: &mut Handle) -> u32 {
    // SAFETY: as for an open. The two references are to two handles.
    unsafe { cubejobs_regions_share(thread, other) }
}

pub fn take(thread: &mut Handle, block: &mut BlockHandle, k: u32) -> Answer {
    // SAFETY: as for a share.
    unsafe { cubejobs_regions_take(thread, block, k) }
}

pub fn take_exact(thread: &mut Handle, block: &mut BlockHandle, k: u32) -> Answer {
    // SAFETY: as for a share.
    unsafe { cubejobs_regions_take_exact(thread, block, k) }
}

pub fn take_at(thread: &mut Handle, block: &mut BlockHandle, base: u64, k: u32) -> Answer {
    // SAFETY: as for a share.
    unsafe { cubejobs_regions_take_at(thread, block, base, k) }
}

pub fn split(thread: &mut Handle, block: &mut BlockHandle, half: &mut BlockHandle) -> u32 {
    // SAFETY: as for a share. The three references are to three handles.
    unsafe { cubejobs_regions_split(thread, block, half) }
}

pub fn join(thread: &mut Handle, block: &mut BlockHandle, half: &mut BlockHandle) -> u32 {
    // SAFETY: as for a split.
    unsafe { cubejobs_regions_join(thread, block, half) }
}

pub fn release(thread: &mut Handle, block: &mut BlockHandle) -> u32 {
    // SAFETY: as for a share.
    unsafe { cubejobs_regions_release(thread, block) }
}

pub fn block(block: &BlockHandle) -> Answer {
    // SAFETY: as for an open. The call only reads.
    unsafe { cubejobs_regions_block(block) }
}

pub fn occupancy(thread: &mut Handle) -> Occupancy {
    // SAFETY: as for an open.
    unsafe { cubejobs_regions_occupancy(thread) }
}

pub fn free(thread: &mut Handle) -> u32 {
    // SAFETY: as for an open.
    unsafe { cubejobs_regions_free(thread) }
}

#[cfg(all(test, feature = "std"))]
impl BlockHandle {
    pub fn words(&self) -> [u64; 2] {
        [self.tag, self.machine]
    }
}
