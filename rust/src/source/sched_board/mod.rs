// Made from crates/sched_board/src/lib.rt by checks/lib/erase.py. Change that file.
//! What threads share that use one scheduler: the scheduler with its workers, and whether jobs may
//! come.
//!
//! A `Pool` is a scheduler with the workers that run its jobs, as one value. Each job that runs has
//! exactly one worker (`IsStaffed`). A `JobBoard` adds the end of the scheduler. Each of its calls
//! says which deeds of `sched_law` it makes, from each team that the board shows (`Leads`). A call
//! that starts jobs says at which time it decides (`FollowsAt`). Only `new` takes memory.

pub(crate) mod blocks;
pub(crate) mod board;
pub(crate) mod calls;
pub(crate) mod pool;
pub(crate) mod serving;
pub(crate) mod sizes;
pub(crate) mod start;

pub(crate) mod woken;
pub(crate) mod workers;

pub use board::{BoardPhase, BoardRefusal, JobBoard};
pub use calls::{BlockError, CancelError, Effect, RestJob, SubmitError};
pub use pool::Pool;
pub use crate::source::sched_core::{
    CLASSES, Forecast, JobRequest, MAX_BITMAP_DIM, MAX_SLOTS, NEVER, Place, Region, SchedJob,
    Scheduler,
};
pub use serving::{Served, WorkerStage};
pub use sizes::ThreadSizes;
pub use start::ThreadStart;
pub use woken::{MOST_WOKEN, Woken};
pub use workers::{MAX_WORKERS, PoolWorker};
