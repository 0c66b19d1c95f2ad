// Made from crates/cubejobs_sched/src/lib.rt by checks/lib/erase.py. Change that file.
//! The scheduler for threads for callers in C, C++ and Rust, as a static library.
//!
//! An export checks the handle and the time, and calls a function over the scheduler in it. No call
//! waits: while another thread has the turn, a call does nothing and says so.

pub(crate) mod answer;
pub(crate) mod answers;
pub(crate) mod block_exports;
pub(crate) mod close_exports;
pub(crate) mod closing;
pub(crate) mod codes;
pub(crate) mod ends;
pub(crate) mod handle;
pub(crate) mod job_exports;
pub(crate) mod jobs;
pub(crate) mod leave_exports;
pub(crate) mod leaving;
pub(crate) mod look_answers;
pub(crate) mod look_exports;
pub(crate) mod looking;
pub(crate) mod opaque_ptr;
pub(crate) mod open_exports;
pub(crate) mod options;
pub(crate) mod ownership;
pub(crate) mod places;
pub(crate) mod serving;
pub(crate) mod state;
pub(crate) mod work_exports;
pub(crate) mod worker_answers;
pub(crate) mod working;

pub use answer::{CountsAnswer, SchedAnswer, SchedForecast};
pub use block_exports::{cubejobs_sched_try_occupy, cubejobs_sched_try_vacate};
pub use close_exports::{
    cubejobs_sched_try_close, cubejobs_sched_try_rest, cubejobs_sched_try_settle,
};
pub use codes::{DONE, OPEN, VERSION};
pub use handle::Handle;
pub use job_exports::{cubejobs_sched_try_cancel, cubejobs_sched_try_submit};
pub use leave_exports::{
    cubejobs_sched_try_done, cubejobs_sched_try_leave, cubejobs_sched_try_lost,
};
pub use look_exports::{cubejobs_sched_try_counts, cubejobs_sched_try_forecast};
pub use open_exports::{
    cubejobs_sched_open_version, cubejobs_sched_share, cubejobs_sched_try_free,
};
pub use options::SchedOptions;
pub use crate::source::sched_threads::JobRequest;
pub use work_exports::{
    cubejobs_sched_try_give_up, cubejobs_sched_try_next, cubejobs_sched_try_worker,
};
