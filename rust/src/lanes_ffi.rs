//! The functions of `include/cubejobs_lanes.h`.
//!
//! Each function here takes its handles by `&mut`. A handle is shut when it is made, and its fields
//! are private. So the calls with one handle come one at a time, and only the library writes to it.

use core::marker::PhantomData;
use core::mem::size_of;
use core::ptr;

pub const VERSION: u32 = 4;
pub const MAX_LANES: u32 = 4096;
pub const MAX_WORKERS: u32 = 4096;
pub const MAX_CAPACITY: u64 = 1024;

pub const DONE: u32 = 0;
pub const OUT_OF_MEMORY: u32 = 11;
pub const FULL: u32 = 16;
pub const CLOSED: u32 = 17;
pub const SPENT: u32 = 18;
pub const EMPTY: u32 = 19;
pub const LOST: u32 = 20;
pub const ENDED: u32 = 21;
pub const BAD_LANE: u32 = 22;
pub const BAD_SIZES: u32 = 23;
pub const LANE_OUT: u32 = 27;
pub const WORKER_OUT: u32 = 28;
pub const NONE_LEFT: u32 = 29;
pub const STILL_SHARED: u32 = 32;
pub const NOBODY: u32 = 41;
pub const AGAIN: u32 = 42;
pub const PARK: u32 = 43;
pub const ASLEEP: u32 = 44;

/// Number of no worker.
pub const NO_WORKER: u32 = u32::MAX;

/// The role of the handle that owns lanes.
pub enum Owner {}

/// The role of a producer's handle.
pub enum Lane {}

/// The role of a worker's handle.
pub enum Worker {}

/// A handle of role `R`. It cannot be cloned or copied.
#[repr(C)]
pub struct Handle<R> {
    tag: u64,
    at: *mut u8,
    role: PhantomData<fn() -> R>,
}

impl<R> Handle<R> {
    pub const SHUT: Self = Handle { tag: 0, at: ptr::null_mut(), role: PhantomData };
}

// SAFETY: what a handle owns may go to another thread. This is proved of the library's own type.
unsafe impl<R> Send for Handle<R> {}
// SAFETY: no call takes a shared reference, so a thread can do nothing with one.
unsafe impl<R> Sync for Handle<R> {}

#[repr(C)]
#[derive(Clone, Copy, Debug, PartialEq, Eq)]
pub struct Sizes {
    pub lanes: u32,
    pub workers: u32,
    pub capacity: u64,
}

#[repr(C)]
pub struct Submitted {
    pub code: u32,
    pub seq: u64,
}

#[repr(C)]
pub struct Job {
    pub code: u32,
    pub lane: u32,
    pub dim: u32,
    pub seq: u64,
    pub payload: u64,
    pub left: u64,
}

#[repr(C)]
pub struct Found {
    pub code: u32,
    pub lane: u32,
    pub dim: u32,
    pub woken: u32,
    pub seq: u64,
    pub payload: u64,
    pub left: u64,
}

#[repr(C)]
pub struct Looked {
    pub code: u32,
    pub jobs: u64,
}

#[repr(C)]
pub struct Closed {
    pub code: u32,
    pub accepted: u64,
}

/// A code with the number of a lane or of a worker.
#[repr(C)]
pub struct Numbered {
    pub code: u32,
    pub number: u32,
}

// The sizes that the library was compiled with.
const _: () = assert!(size_of::<Handle<Owner>>() == 16 && size_of::<Sizes>() == 16);
const _: () = assert!(size_of::<Job>() == 40 && size_of::<Found>() == 40);

pub type Lanes = Handle<Owner>;
pub type OneLane = Handle<Lane>;
pub type OneWorker = Handle<Worker>;

#[link(name = "cubejobs_lanes", kind = "static")]
// SAFETY: the declarations are those of the header. A caller in C promises whole handles, different
// ones in one call, that were zeroed and that only the library has written to. It also makes one
// call at a time with each. A `&mut Handle` is that: a handle is made shut, and is neither copied
// nor read here. So these functions have no further duty.
unsafe extern "C" {
    pub safe fn cubejobs_lanes_open_version(owner: &mut Lanes, version: u32, sizes: Sizes) -> u32;
    pub safe fn cubejobs_lanes_lane(owner: &mut Lanes, lane: &mut OneLane) -> u32;
    pub safe fn cubejobs_lanes_worker(owner: &mut Lanes, worker: &mut OneWorker) -> u32;
    pub safe fn cubejobs_lanes_worker_number(worker: &mut OneWorker) -> Numbered;
    pub safe fn cubejobs_lanes_submit(lane: &mut OneLane, payload: u64, dim: u32) -> Submitted;
    pub safe fn cubejobs_lanes_wake(lane: &mut OneLane) -> Numbered;
    pub safe fn cubejobs_lanes_take(worker: &mut OneWorker, lane: u32) -> Job;
    pub safe fn cubejobs_lanes_take_any(worker: &mut OneWorker, from: u32) -> Job;
    pub safe fn cubejobs_lanes_look(worker: &mut OneWorker, lane: u32) -> Looked;
    pub safe fn cubejobs_lanes_find(worker: &mut OneWorker, from: u32) -> Found;
    pub safe fn cubejobs_lanes_awake(worker: &mut OneWorker) -> u32;
    pub safe fn cubejobs_lanes_close(owner: &mut Lanes) -> Closed;
    pub safe fn cubejobs_lanes_free_lane(lane: &mut OneLane) -> u32;
    pub safe fn cubejobs_lanes_free_worker(worker: &mut OneWorker) -> u32;
    pub safe fn cubejobs_lanes_finish(owner: &mut Lanes) -> Numbered;
    pub safe fn cubejobs_lanes_rest(owner: &mut Lanes) -> Job;
    pub safe fn cubejobs_lanes_free(owner: &mut Lanes) -> u32;
}
