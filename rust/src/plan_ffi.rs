//! The functions of `include/cubejobs_plan.h`, the planner.
//!
//! Each function here takes its handle by `&mut`. A handle is shut when it is made, and its fields
//! are private. So the calls with one handle come one at a time, and only the library writes to it.

use core::mem::size_of;
use core::ptr;

pub const VERSION: u32 = 1;
pub const MAX_DIM: u32 = 20;
pub const CLASSES: u8 = 8;
pub const MAX_JOBS: u32 = 16_777_216;
pub const NEVER: u64 = u64::MAX;

pub const DONE: u32 = 0;
pub const OUT_OF_MEMORY: u32 = 11;
pub const NO_JOB: u32 = 19;
pub const OUT_OF_RANGE: u32 = 45;
pub const FULL: u32 = 46;
pub const WRONG_STATE: u32 = 47;
pub const TIME_BACK: u32 = 48;

pub const WAITS: u32 = 1;
pub const RESERVED: u32 = 2;
pub const RUNS: u32 = 3;

/// A handle of a planner. It cannot be cloned or copied.
#[repr(C)]
pub struct Handle {
    tag: u64,
    at: *mut u8,
}

impl Handle {
    pub const SHUT: Handle = Handle { tag: 0, at: ptr::null_mut() };
}

// SAFETY: a planner has its memory for itself, and the library has no state of a thread.
unsafe impl Send for Handle {}
// SAFETY: no call takes a shared reference, so a thread can do nothing with one.
unsafe impl Sync for Handle {}

#[repr(C)]
#[derive(Clone, Copy)]
pub struct Options {
    pub dim: u32,
    pub jobs: u32,
    pub patience: u32,
    pub flags: u32,
}

/// Memory that a caller lends. This package lends none.
#[repr(C)]
struct Memory {
    at: *mut u8,
    words: u64,
}

#[repr(C)]
#[derive(Clone, Copy)]
pub struct Request {
    pub payload: u64,
    pub estimate: u64,
    pub processors: u32,
    pub job_class: u32,
}

#[repr(C)]
#[derive(Clone, Copy)]
pub struct Job {
    pub code: u32,
    pub state: u32,
    pub ticket: u64,
    pub payload: u64,
    pub base: u64,
    pub time: u64,
    pub before: u64,
    pub arrival: u64,
    pub processors: u32,
    pub dim: u32,
    pub job_class: u32,
}

#[repr(C)]
#[derive(Clone, Copy)]
pub struct Counts {
    pub code: u32,
    pub waiting: u32,
    pub running: u32,
    pub held: u32,
    pub asked: u32,
    pub occupied: u32,
    pub largest: u32,
}

// The sizes that the library was compiled with.
const _: () = assert!(size_of::<Handle>() == 16 && size_of::<Options>() == 16);
const _: () = assert!(size_of::<Request>() == 24 && size_of::<Job>() == 72 && size_of::<Counts>() == 28);

#[link(name = "cubejobs_plan", kind = "static")]
unsafe extern "C" {
    fn cubejobs_plan_open_version(
        plan: &mut Handle,
        version: u32,
        options: Options,
        memory: Memory,
        address: usize,
    ) -> u32;
    fn cubejobs_plan_submit(plan: &mut Handle, request: Request) -> Job;
    fn cubejobs_plan_cancel(plan: &mut Handle, ticket: u64) -> Job;
    fn cubejobs_plan_finish(plan: &mut Handle, ticket: u64) -> Job;
    fn cubejobs_plan_occupy(plan: &mut Handle, base: u64, dim: u32) -> u32;
    fn cubejobs_plan_vacate(plan: &mut Handle, base: u64, dim: u32) -> u32;
    fn cubejobs_plan_next(plan: &mut Handle, now: u64) -> Job;
    fn cubejobs_plan_forecast(plan: &mut Handle, ticket: u64) -> Job;
    fn cubejobs_plan_after(plan: &mut Handle, ticket: u64) -> Job;
    fn cubejobs_plan_counts(plan: &mut Handle) -> Counts;
    fn cubejobs_plan_close(plan: &mut Handle) -> u32;
}

pub fn open(plan: &mut Handle, options: Options) -> u32 {
    // SAFETY: the reference is to a whole handle. Only the library has written to it since it was
    // made. The library asks for no memory.
    unsafe { cubejobs_plan_open_version(plan, VERSION, options, Memory { at: ptr::null_mut(), words: 0 }, 0) }
}

pub fn submit(plan: &mut Handle, request: Request) -> Job {
    // SAFETY: as for an open.
    unsafe { cubejobs_plan_submit(plan, request) }
}

pub fn cancel(plan: &mut Handle, ticket: u64) -> Job {
    // SAFETY: as for an open.
    unsafe { cubejobs_plan_cancel(plan, ticket) }
}

pub fn finish(plan: &mut Handle, ticket: u64) -> Job {
    // SAFETY: as for an open.
    unsafe { cubejobs_plan_finish(plan, ticket) }
}

pub fn occupy(plan: &mut Handle, base: u64, dim: u32) -> u32 {
    // SAFETY: as for an open.
    unsafe { cubejobs_plan_occupy(plan, base, dim) }
}

pub fn vacate(plan: &mut Handle, base: u64, dim: u32) -> u32 {
    // SAFETY: as for an open.
    unsafe { cubejobs_plan_vacate(plan, base, dim) }
}

pub fn next(plan: &mut Handle, now: u64) -> Job {
    // SAFETY: as for an open.
    unsafe { cubejobs_plan_next(plan, now) }
}

pub fn forecast(plan: &mut Handle, ticket: u64) -> Job {
    // SAFETY: as for an open.
    unsafe { cubejobs_plan_forecast(plan, ticket) }
}

pub fn after(plan: &mut Handle, ticket: u64) -> Job {
    // SAFETY: as for an open.
    unsafe { cubejobs_plan_after(plan, ticket) }
}

pub fn counts(plan: &mut Handle) -> Counts {
    // SAFETY: as for an open.
    unsafe { cubejobs_plan_counts(plan) }
}

pub fn close(plan: &mut Handle) -> u32 {
    // SAFETY: as for an open.
    unsafe { cubejobs_plan_close(plan) }
}
