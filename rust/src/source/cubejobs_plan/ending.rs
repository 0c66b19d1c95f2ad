// Made from crates/cubejobs_plan/src/ending.rt by checks/lib/erase.py. Change that file.
//! How a job is over: it is cancelled, or has ended.

use crate::source::cubejobs_plan::answer::PlanJob;
use crate::source::cubejobs_plan::answers::{answer_at, refused};
use crate::source::cubejobs_plan::codes::{DONE, NO_JOB, WRONG_STATE};
use crate::source::sched_core::{Place, Scheduler};

/// Takes a job back that waits.
pub(crate) fn cancel(scheduler: &mut Scheduler, ticket: u64) -> PlanJob {
    let Some(slot) = scheduler.find(ticket) else {
        return refused(NO_JOB);
    };
    let Place::Waiting(_) = scheduler.place(slot) else {
        return refused(WRONG_STATE);
    };
    let answer = answer_at(scheduler, slot);
    scheduler.cancel(slot);
    answer
}

/// Says that a job that ran has ended.
pub(crate) fn finish(scheduler: &mut Scheduler, ticket: u64) -> PlanJob {
    let Some(slot) = scheduler.find(ticket) else {
        return refused(NO_JOB);
    };
    let Place::Running(_) = scheduler.place(slot) else {
        return refused(WRONG_STATE);
    };
    let answer = answer_at(scheduler, slot);
    scheduler.finish(slot);
    answer
}
