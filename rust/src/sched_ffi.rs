//! The functions of `include/cubejobs_sched.h` that never sleep: the scheduler for threads.
//!
//! Each function here takes its handle by `&mut`. A handle is shut when it is made, and its fields
//! are private. So the calls with one handle come one at a time, and only the library writes to it.

use core::mem::size_of;
use core::ptr;

pub const VERSION: u32 = 1;
pub const MAX_DIM: u32 = 20;
pub const CLASSES: u8 = 8;
pub const MAX_JOBS: u32 = 16_777_216;
pub const MAX_WORKERS: u32 = 65_536;
pub const NEVER: u64 = u64::MAX;

pub const DONE: u32 = 0;
pub const OUT_OF_MEMORY: u32 = 11;
pub const CLOSED: u32 = 17;
pub const NO_JOB: u32 = 19;
pub const OUT_OF_RANGE: u32 = 45;
pub const FULL: u32 = 46;
pub const WRONG_STATE: u32 = 47;

pub const WAITS: u32 = 1;
pub const RESERVED: u32 = 2;
pub const RUNS: u32 = 3;

/// A handle of a scheduler. It cannot be cloned or copied.
#[repr(C)]
pub struct Handle {
    tag: u64,
    at: *mut u8,
}

// SAFETY: what a handle owns may go to another thread. This is proved of the library's own type.
unsafe impl Send for Handle {}
// SAFETY: no call takes a shared reference, so a thread can do nothing with one.
unsafe impl Sync for Handle {}

#[repr(C)]
#[derive(Clone, Copy)]
pub struct Options {
    pub dim: u32,
    pub jobs: u32,
    pub patience: u32,
    pub workers: u32,
}

#[repr(C)]
#[derive(Clone, Copy)]
pub struct Request {
    pub payload: u64,
    pub estimate: u64,
    pub processors: u32,
    pub job_class: u32,
}

#[repr(C)]
#[derive(Clone, Copy)]
pub struct Answer {
    pub code: u32,
    pub count: u32,
    woken: [u32; 4],
    pub more: u32,
    pub over: u32,
    pub ticket: u64,
    pub payload: u64,
    pub base: u64,
    pub processors: u32,
    pub worker: u32,
}

#[repr(C)]
#[derive(Clone, Copy)]
pub struct Forecast {
    pub code: u32,
    pub state: u32,
    pub base: u64,
    pub time: u64,
    pub dim: u32,
    unused: u32,
}

#[repr(C)]
#[derive(Clone, Copy)]
pub struct Counts {
    pub code: u32,
    pub held: u32,
    pub occupied: u32,
    unused: u32,
    pub waiting: u64,
    pub running: u64,
    pub asked: u64,
}

// The sizes that the library was compiled with.
const _: () = assert!(size_of::<Handle>() == 16 && size_of::<Options>() == 16);
const _: () = assert!(size_of::<Request>() == 24 && size_of::<Answer>() == 64);
const _: () = assert!(size_of::<Forecast>() == 32 && size_of::<Counts>() == 40);

#[link(name = "cubejobs_sched", kind = "static")]
// SAFETY: the declarations are those of the header. A caller in C promises whole handles that were
// zeroed and that only the library has written to. It also makes one call at a time with each. A
// `&mut Handle` is that: a handle is made shut, and is neither copied nor read here.
unsafe extern "C" {
    safe fn cubejobs_sched_open_version(handle: &mut Handle, version: u32, options: Options) -> u32;
    safe fn cubejobs_sched_try_free(handle: &mut Handle) -> u32;
    safe fn cubejobs_sched_try_submit(handle: &mut Handle, request: Request, now: u64) -> Answer;
    safe fn cubejobs_sched_try_cancel(handle: &mut Handle, ticket: u64, now: u64) -> Answer;
    safe fn cubejobs_sched_try_worker(handle: &mut Handle) -> Answer;
    safe fn cubejobs_sched_try_next(handle: &mut Handle, worker: u32, now: u64) -> Answer;
    safe fn cubejobs_sched_try_give_up(handle: &mut Handle, worker: u32, now: u64) -> Answer;
    safe fn cubejobs_sched_try_done(handle: &mut Handle, worker: u32, now: u64) -> Answer;
    safe fn cubejobs_sched_try_leave(handle: &mut Handle, worker: u32, now: u64) -> Answer;
    safe fn cubejobs_sched_try_lost(handle: &mut Handle, worker: u32, now: u64) -> Answer;
    safe fn cubejobs_sched_try_occupy(handle: &mut Handle, base: u64, dim: u32, now: u64) -> Answer;
    safe fn cubejobs_sched_try_vacate(handle: &mut Handle, base: u64, dim: u32, now: u64) -> Answer;
    safe fn cubejobs_sched_try_close(handle: &mut Handle, mode: u32, now: u64) -> Answer;
    safe fn cubejobs_sched_try_rest(handle: &mut Handle, after: u32) -> Answer;
    safe fn cubejobs_sched_try_settle(handle: &mut Handle, now: u64) -> Answer;
    safe fn cubejobs_sched_try_forecast(handle: &mut Handle, ticket: u64) -> Forecast;
    safe fn cubejobs_sched_try_counts(handle: &mut Handle) -> Counts;
}

impl Answer {
    /// Returns the workers that got a job: the first `count` of these.
    pub fn woken(&self) -> [u32; 4] {
        self.woken
    }
}

/// Makes a shut handle.
pub fn shut() -> Handle {
    Handle { tag: 0, at: ptr::null_mut() }
}

pub fn open(handle: &mut Handle, options: Options) -> u32 {
    cubejobs_sched_open_version(handle, VERSION, options)
}

pub fn free(handle: &mut Handle) -> u32 {
    cubejobs_sched_try_free(handle)
}

pub fn submit(handle: &mut Handle, request: Request, now: u64) -> Answer {
    cubejobs_sched_try_submit(handle, request, now)
}

pub fn cancel(handle: &mut Handle, ticket: u64, now: u64) -> Answer {
    cubejobs_sched_try_cancel(handle, ticket, now)
}

pub fn worker(handle: &mut Handle) -> Answer {
    cubejobs_sched_try_worker(handle)
}

pub fn next(handle: &mut Handle, worker: u32, now: u64) -> Answer {
    cubejobs_sched_try_next(handle, worker, now)
}

pub fn give_up(handle: &mut Handle, worker: u32, now: u64) -> Answer {
    cubejobs_sched_try_give_up(handle, worker, now)
}

pub fn done(handle: &mut Handle, worker: u32, now: u64) -> Answer {
    cubejobs_sched_try_done(handle, worker, now)
}

pub fn leave(handle: &mut Handle, worker: u32, now: u64) -> Answer {
    cubejobs_sched_try_leave(handle, worker, now)
}

pub fn lost(handle: &mut Handle, worker: u32, now: u64) -> Answer {
    cubejobs_sched_try_lost(handle, worker, now)
}

pub fn occupy(handle: &mut Handle, base: u64, dim: u32, now: u64) -> Answer {
    cubejobs_sched_try_occupy(handle, base, dim, now)
}

pub fn vacate(handle: &mut Handle, base: u64, dim: u32, now: u64) -> Answer {
    cubejobs_sched_try_vacate(handle, base, dim, now)
}

pub fn close(handle: &mut Handle, mode: u32, now: u64) -> Answer {
    cubejobs_sched_try_close(handle, mode, now)
}

pub fn rest(handle: &mut Handle, after: u32) -> Answer {
    cubejobs_sched_try_rest(handle, after)
}

pub fn settle(handle: &mut Handle, now: u64) -> Answer {
    cubejobs_sched_try_settle(handle, now)
}

pub fn forecast(handle: &mut Handle, ticket: u64) -> Forecast {
    cubejobs_sched_try_forecast(handle, ticket)
}

pub fn counts(handle: &mut Handle) -> Counts {
    cubejobs_sched_try_counts(handle)
}
