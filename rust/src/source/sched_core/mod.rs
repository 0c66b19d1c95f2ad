// Made from crates/sched_core/src/lib.rt by checks/lib/erase.py. Change that file.
//! A scheduler of aligned blocks as one value: what runs, what waits, and what starts next.
//!
//! It is a state of `sched_law` as `sched_blocks` and `sched_jobs` keep it, with the reservation
//! and the time. Each call says what it does to each state that the scheduler shows. Only `new`
//! allocates memory. A `JobRequest` is a job as callers ask for it.

pub(crate) mod assigned;
pub(crate) mod choice;
pub(crate) mod forecast;
pub(crate) mod kept;
pub(crate) mod law;
pub(crate) mod request;
pub(crate) mod scheduler;
pub(crate) mod small;
pub(crate) mod start;

pub use assigned::{Assigned, Forecast};
pub use crate::source::cube_shape::{MAX_BITMAP_DIM, Region};
pub use kept::Scheduler;
pub use law::announced_jobs_start;
pub use request::{JobRequest, is_askable, job_of};
pub use crate::source::sched_jobs::{CLASSES, MAX_GENERATION, MAX_SLOTS, tickets_differ};
pub use crate::source::sched_law::{NEVER, Place, SchedJob, SchedRun, SchedWait};
