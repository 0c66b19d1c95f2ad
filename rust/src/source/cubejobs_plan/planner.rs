// Made from crates/cubejobs_plan/src/planner.rt by checks/lib/erase.py. Change that file.
//! The content of a handle.

use crate::source::sched_core::Scheduler;

/// A planner: a scheduler in its place on the heap.
pub(crate) struct Planner {
    pub(crate) scheduler: Scheduler,
}
