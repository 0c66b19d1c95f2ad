//! The calls of the planner, over the erased sources. Their clauses ask nothing.

use crate::source::cubejobs_plan as source;
use crate::source::kit::alloc::Global;
use crate::source::kit::fixed_vec::Chunk;
use crate::source::kit::opaque::Opaque;

pub use crate::source::cubejobs_plan::codes::{
    FULL, NO_JOB, OUT_OF_MEMORY, OUT_OF_RANGE, TIME_BACK, WRONG_STATE,
};
pub use crate::source::cubejobs_plan::states::{RESERVED, RUNS, WAITS};
pub use crate::source::cubejobs_plan::{
    Handle, JobRequest as Request, Options, PlanCounts as Counts, PlanJob as Job, DONE,
};
pub use crate::source::sched_core::{CLASSES, NEVER};

pub const MAX_DIM: u32 = crate::source::cube_shape::MAX_BITMAP_DIM;
pub const MAX_JOBS: u32 = crate::source::sched_core::MAX_SLOTS as u32;

impl Handle {
    pub const SHUT: Handle = Handle { tag: 0, at: Opaque::nothing(Global) };
}

pub fn open(plan: &mut Handle, options: Options) -> u32 {
    let none = Chunk { at: core::ptr::null_mut(), words: 0 };
    source::cubejobs_plan_open_version(plan, source::VERSION, options, none, 0)
}

pub fn submit(plan: &mut Handle, request: Request) -> Job {
    source::cubejobs_plan_submit(plan, request)
}

pub fn cancel(plan: &mut Handle, ticket: u64) -> Job {
    source::cubejobs_plan_cancel(plan, ticket)
}

pub fn finish(plan: &mut Handle, ticket: u64) -> Job {
    source::cubejobs_plan_finish(plan, ticket)
}

pub fn occupy(plan: &mut Handle, base: u64, dim: u32) -> u32 {
    source::cubejobs_plan_occupy(plan, base, dim)
}

pub fn vacate(plan: &mut Handle, base: u64, dim: u32) -> u32 {
    source::cubejobs_plan_vacate(plan, base, dim)
}

pub fn next(plan: &mut Handle, now: u64) -> Job {
    source::cubejobs_plan_next(plan, now)
}

pub fn forecast(plan: &mut Handle, ticket: u64) -> Job {
    source::cubejobs_plan_forecast(plan, ticket)
}

pub fn after(plan: &mut Handle, ticket: u64) -> Job {
    source::cubejobs_plan_after(plan, ticket)
}

pub fn counts(plan: &mut Handle) -> Counts {
    source::cubejobs_plan_counts(plan)
}

pub fn close(plan: &mut Handle) -> u32 {
    source::cubejobs_plan_close(plan)
}
