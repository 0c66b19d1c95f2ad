// Made from crates/sched_law/src/lib.rt by checks/lib/erase.py. Change that file.
//! The policy of a scheduler of aligned blocks, and what follows from it: jobs in order, and
//! backfill around one reserved block.
//!
//! This crate has no state. A contract says what a scheduler may decide in a state, and the laws
//! say what holds of each decision. Source of backfill with one reservation (EASY): Lifka, "The
//! ANL/IBM SP Scheduling System", 1995.
//!
//! A team is a scheduler with workers. A history of it is a list of deeds: what each call did. The
//! laws of `team_law` hold of each history in which each deed was allowed.

pub(crate) mod job;

pub use job::{NEVER, Place, Reservation, SchedJob, SchedRun, SchedWait};
