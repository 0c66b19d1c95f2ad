// Made from crates/cubejobs_plan/src/submitting.rt by checks/lib/erase.py. Change that file.
//! How a job is submitted.

use crate::source::cubejobs_plan::answer::PlanJob;
use crate::source::cubejobs_plan::answers::{answer_at_last, refused};
use crate::source::cubejobs_plan::codes::{DONE, FULL, OUT_OF_RANGE};
use crate::source::sched_core::{JobRequest, NEVER, Scheduler, is_askable, job_of};

/// Submits a job.
pub(crate) fn submit(scheduler: &mut Scheduler, request: JobRequest) -> PlanJob {
    let n = scheduler.dim();
    if !is_askable(n, request) {
        return refused(OUT_OF_RANGE);
    }
    if scheduler.submitted() == NEVER {
        return refused(FULL);
    }
    let Some(slot) = scheduler.submit(job_of(n, request)) else {
        return refused(FULL);
    };
    answer_at_last(scheduler, slot)
}
