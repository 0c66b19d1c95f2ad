//! The calls of the scheduler for threads, over the erased sources. Their clauses ask nothing.

use crate::source::cubejobs_sched as source;
use crate::source::kit::alloc::Global;

pub use crate::source::cubejobs_sched::codes::{
    CLOSED, FULL, NO_JOB, OUT_OF_MEMORY, OUT_OF_RANGE, WRONG_STATE,
};
pub use crate::source::cubejobs_sched::{
    CountsAnswer as Counts, Handle, JobRequest as Request, SchedAnswer as Answer, SchedForecast as Forecast,
    SchedOptions as Options, DONE,
};
pub use crate::source::sched_board::{MAX_WORKERS, NEVER};
pub use crate::source::sched_core::CLASSES;

pub const MAX_DIM: u32 = crate::source::cube_shape::MAX_BITMAP_DIM;
pub const MAX_JOBS: u32 = crate::source::sched_board::MAX_SLOTS as u32;

pub const WAITS: u32 = 1;
pub const RESERVED: u32 = 2;
pub const RUNS: u32 = 3;

impl Answer {
    /// Returns the workers that got a job: the first `count` of these.
    pub fn woken(&self) -> [u32; 4] {
        [self.first, self.second, self.third, self.fourth]
    }
}

/// Makes a shut handle.
pub fn shut() -> Handle {
    Handle::shut(Global)
}

pub fn open(handle: &mut Handle, options: Options) -> u32 {
    source::cubejobs_sched_open_version(handle, source::VERSION, options)
}

pub fn free(handle: &mut Handle) -> u32 {
    source::cubejobs_sched_try_free(handle)
}

pub fn submit(handle: &mut Handle, request: Request, now: u64) -> Answer {
    source::cubejobs_sched_try_submit(handle, request, now)
}

pub fn cancel(handle: &mut Handle, ticket: u64, now: u64) -> Answer {
    source::cubejobs_sched_try_cancel(handle, ticket, now)
}

pub fn worker(handle: &mut Handle) -> Answer {
    source::cubejobs_sched_try_worker(handle)
}

pub fn next(handle: &mut Handle, worker: u32, now: u64) -> Answer {
    source::cubejobs_sched_try_next(handle, worker, now)
}

pub fn give_up(handle: &mut Handle, worker: u32, now: u64) -> Answer {
    source::cubejobs_sched_try_give_up(handle, worker, now)
}

pub fn done(handle: &mut Handle, worker: u32, now: u64) -> Answer {
    source::cubejobs_sched_try_done(handle, worker, now)
}

pub fn leave(handle: &mut Handle, worker: u32, now: u64) -> Answer {
    source::cubejobs_sched_try_leave(handle, worker, now)
}

pub fn lost(handle: &mut Handle, worker: u32, now: u64) -> Answer {
    source::cubejobs_sched_try_lost(handle, worker, now)
}

pub fn occupy(handle: &mut Handle, base: u64, dim: u32, now: u64) -> Answer {
    source::cubejobs_sched_try_occupy(handle, base, dim, now)
}

pub fn vacate(handle: &mut Handle, base: u64, dim: u32, now: u64) -> Answer {
    source::cubejobs_sched_try_vacate(handle, base, dim, now)
}

pub fn close(handle: &mut Handle, mode: u32, now: u64) -> Answer {
    source::cubejobs_sched_try_close(handle, mode, now)
}

pub fn rest(handle: &mut Handle, after: u32) -> Answer {
    source::cubejobs_sched_try_rest(handle, after)
}

pub fn settle(handle: &mut Handle, now: u64) -> Answer {
    source::cubejobs_sched_try_settle(handle, now)
}

pub fn forecast(handle: &mut Handle, ticket: u64) -> Forecast {
    source::cubejobs_sched_try_forecast(handle, ticket)
}

pub fn counts(handle: &mut Handle) -> Counts {
    source::cubejobs_sched_try_counts(handle)
}
