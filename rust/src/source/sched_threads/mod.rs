// Made from crates/sched_threads/src/lib.rt by checks/lib/erase.py. Change that file.
//! A scheduler that threads share: the scheduler with its workers under a lock for which no call
//! waits.
//!
//! A call that finds the lock taken does nothing, and says so. Each other call makes one *turn*: it
//! changes what the threads share from one state to another. The turns of all threads form one
//! sequence, and each is made of deeds of `sched_law`.

pub(crate) mod block_calls;
pub(crate) mod chair;
pub(crate) mod clocked;
pub(crate) mod close_calls;
pub(crate) mod counts;
pub(crate) mod desk;
pub(crate) mod desk_calls;
pub(crate) mod end_calls;

pub(crate) mod look_calls;
pub(crate) mod plays;
pub(crate) mod receipt;
pub(crate) mod seating;
pub(crate) mod table;

pub(crate) mod threads;
pub(crate) mod view;
pub(crate) mod worker_calls;

pub use chair::Chair;
pub use counts::SchedCounts;
pub use desk::{Desk, WrongState};

pub use receipt::{HiddenReceipt, NotNow, TurnReceipt};
pub use crate::source::sched_board::{
    BlockError, CancelError, Effect, Forecast, JobRequest, RestJob, Served, SubmitError,
    ThreadSizes, ThreadStart, Woken,
};
pub use threads::Threads;
