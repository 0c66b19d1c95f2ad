//! The functions of `include/cubejobs_rounds.h`.
//!
//! They take and return numbers alone, so no call has a duty.

use core::mem::size_of;

pub const MAX_DIM: u32 = 31;
pub const NO_RANK: u64 = u64::MAX;

pub const DONE: u32 = 0;
pub const BAD_DIMENSION: u32 = 3;
pub const BAD_ROOT: u32 = 56;

#[repr(C)]
#[derive(Clone, Copy)]
pub struct CountAnswer {
    pub code: u32,
    pub rounds: u32,
    pub messages: u64,
}

#[repr(C)]
#[derive(Clone, Copy)]
pub struct MessageAnswer {
    pub code: u32,
    pub round: u32,
    pub from: u64,
    pub to: u64,
}

#[repr(C)]
#[derive(Clone, Copy)]
pub struct StepAnswer {
    pub code: u32,
    pub to: u64,
    pub from: u64,
}

// The sizes that the library was compiled with.
const _: () = assert!(size_of::<CountAnswer>() == 16 && size_of::<MessageAnswer>() == 24);
const _: () = assert!(size_of::<StepAnswer>() == 24);

#[link(name = "cubejobs_rounds", kind = "static")]
unsafe extern "C" {
    fn cubejobs_message_count(shape: u32, k: u32) -> CountAnswer;
    fn cubejobs_message(shape: u32, k: u32, root: u64, i: u64) -> MessageAnswer;
    fn cubejobs_step(shape: u32, k: u32, root: u64, rank: u64, round: u32) -> StepAnswer;
}

pub fn count(shape: u32, k: u32) -> CountAnswer {
    // SAFETY: the call takes any numbers.
    unsafe { cubejobs_message_count(shape, k) }
}

pub fn message(shape: u32, k: u32, root: u64, i: u64) -> MessageAnswer {
    // SAFETY: the call takes any numbers.
    unsafe { cubejobs_message(shape, k, root, i) }
}

pub fn step(shape: u32, k: u32, root: u64, rank: u64, round: u32) -> StepAnswer {
    // SAFETY: the call takes any numbers.
    unsafe { cubejobs_step(shape, k, root, rank, round) }
}
