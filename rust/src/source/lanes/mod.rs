// Made from crates/lanes/src/lib.rt by checks/lib/erase.py. Change that file.
//! Bounded queues of jobs (lanes), each of one producer, and workers that take from all of them.
//!
//! No call waits: a submit or a take makes at most five atomic steps. All lanes are in one table of
//! words. A lane has two counts, of accepted and of taken jobs, and two cells for each job that it
//! can hold. Each lane has one history of its atomic steps. The records of its producer and of the
//! workers are parts of it.

pub(crate) mod closing;
pub(crate) mod ending;
pub(crate) mod finder;
pub(crate) mod finding;
pub(crate) mod handles;
pub(crate) mod lanes;
pub(crate) mod record;
pub(crate) mod rounds;
pub(crate) mod rule;
pub(crate) mod searching;
pub(crate) mod sizes;
pub(crate) mod sleeping;
pub(crate) mod submits;
pub(crate) mod takes;
pub(crate) mod view;

pub use crate::source::lanes::lanes::Lanes;
pub use finder::{At, Finder, Finding, Found};
pub use handles::{Closer, Lane, LanesEnd, Members, Note, Worker};
pub use record::{LaneJob, LaneRecord, Sight, TakeRecord, WorkerRecord};
pub use rounds::{Looked, TakenAny};
pub use sizes::{MAX_CAPACITY, MAX_JOBS, MAX_LANES, MAX_WORKERS, Plan, Sizes};
pub use sleeping::{Sleeper, all_lanes_are_served};
pub use submits::Submitted;
pub use takes::Taken;
