// Made from crates/cubejobs_plan/src/lib.rt by checks/lib/erase.py. Change that file.
//! The scheduler of jobs in aligned blocks for callers in C, C++ and Rust, as a static library.
//!
//! An export checks the handle, and calls a function over the scheduler in it.

pub(crate) mod answer;
pub(crate) mod answers;
pub(crate) mod block_exports;
pub(crate) mod codes;
pub(crate) mod counting;
pub(crate) mod end_exports;
pub(crate) mod ending;
pub(crate) mod handle;
pub(crate) mod job_exports;
pub(crate) mod law;
pub(crate) mod look_exports;
pub(crate) mod looking;
pub(crate) mod next_exports;
pub(crate) mod opaque_ptr;
pub(crate) mod open_exports;
pub(crate) mod opening;
pub(crate) mod options;
pub(crate) mod places;
pub(crate) mod planner;
pub(crate) mod serving;
pub(crate) mod starting;
pub(crate) mod states;
pub(crate) mod submitting;

pub use answer::{PlanCounts, PlanJob};
pub use block_exports::{cubejobs_plan_occupy, cubejobs_plan_vacate};
pub use codes::{DONE, LENT, OPEN, VERSION};
pub use end_exports::{cubejobs_plan_cancel, cubejobs_plan_finish};
pub use crate::source::kit::fixed_vec::Chunk;
pub use handle::Handle;
pub use job_exports::cubejobs_plan_submit;
pub use law::jobs_wait_or_run;
pub use look_exports::{cubejobs_plan_after, cubejobs_plan_counts, cubejobs_plan_forecast};
pub use next_exports::cubejobs_plan_next;
pub use open_exports::{cubejobs_plan_bytes, cubejobs_plan_close, cubejobs_plan_open_version};
pub use options::Options;
pub use crate::source::sched_core::JobRequest;
