// Made from crates/cubejobs_plan/src/looking.rt by checks/lib/erase.py. Change that file.
//! Calls that look at jobs and change nothing.

use crate::source::cubejobs_plan::answer::PlanJob;
use crate::source::cubejobs_plan::answers::{answer_at, listed, refused};
use crate::source::cubejobs_plan::codes::{DONE, NO_JOB};
use crate::source::sched_core::{MAX_SLOTS, Scheduler};

/// Says where a job is.
pub(crate) fn forecast(scheduler: &Scheduler, ticket: u64) -> PlanJob {
    let Some(slot) = scheduler.find(ticket) else {
        return refused(NO_JOB);
    };
    answer_at(scheduler, slot)
}

// Returns the slot after that of a ticket.
fn after_ticket(ticket: u64) -> u32 {
    if ticket == 0 {
        return 0;
    }
    (ticket % MAX_SLOTS as u64) as u32 + 1
}

/// Returns the first job in a slot after that of a ticket.
pub(crate) fn after(scheduler: &Scheduler, ticket: u64) -> PlanJob {
    let Some(slot) = scheduler.next_used(after_ticket(ticket)) else {
        return refused(NO_JOB);
    };
    listed(scheduler, slot)
}
