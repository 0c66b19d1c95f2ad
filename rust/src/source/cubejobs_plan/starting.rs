// Made from crates/cubejobs_plan/src/starting.rt by checks/lib/erase.py. Change that file.
//! How the next job starts.

use crate::source::cubejobs_plan::answer::PlanJob;
use crate::source::cubejobs_plan::answers::{answer_at, refused};
use crate::source::cubejobs_plan::codes::{DONE, NO_JOB, OUT_OF_RANGE, TIME_BACK};
use crate::source::sched_core::{NEVER, Scheduler};

/// Starts the job that comes next at this time.
pub(crate) fn next(scheduler: &mut Scheduler, now: u64) -> PlanJob {
    if now == NEVER {
        return refused(OUT_OF_RANGE);
    }
    if now < scheduler.now() {
        return refused(TIME_BACK);
    }
    let Some(slot) = scheduler.next(now) else {
        return refused(NO_JOB);
    };
    answer_at(scheduler, slot)
}
