// Made from crates/cubejobs_plan/src/counting.rt by checks/lib/erase.py. Change that file.
//! How much a planner has.

use crate::source::cubejobs_plan::answer::PlanCounts;
use crate::source::cubejobs_plan::codes::DONE;
use crate::source::sched_core::Scheduler;

// Makes the answer of a refused call.
pub(crate) fn uncounted(code: u32) -> PlanCounts {
    PlanCounts {
        code,
        waiting: 0,
        running: 0,
        held: 0,
        asked: 0,
        occupied: 0,
        largest: 0,
    }
}

// Returns how many jobs wait.
fn waiting(scheduler: &Scheduler) -> u32 {
    scheduler.shows_a_state();
    scheduler.waiting() as u32
}

// Returns how many jobs run.
fn running(scheduler: &Scheduler) -> u32 {
    scheduler.shows_a_state();
    scheduler.running() as u32
}

// Returns how many processors the running jobs asked for.
fn asked(scheduler: &Scheduler) -> u32 {
    scheduler.shows_a_state();
    scheduler.asked() as u32
}

// Returns the number of processors of the largest vacant block, or 0.
fn largest(scheduler: &Scheduler) -> u32 {
    scheduler.shows_a_state();
    let Some(dim) = scheduler.largest_vacant() else {
        return 0;
    };
    1 << dim
}

/// Counts what a scheduler has.
pub(crate) fn counts(scheduler: &Scheduler) -> PlanCounts {
    PlanCounts {
        code: DONE,
        waiting: waiting(scheduler),
        running: running(scheduler),
        held: scheduler.held(),
        asked: asked(scheduler),
        occupied: scheduler.occupied(),
        largest: largest(scheduler),
    }
}
