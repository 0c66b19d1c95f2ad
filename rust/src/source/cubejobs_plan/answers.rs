// Made from crates/cubejobs_plan/src/answers.rt by checks/lib/erase.py. Change that file.
//! How an answer about a job is made.
//!
//! An answer is large. These functions are parts of their callers, so that it is written once.

use crate::source::cubejobs_plan::answer::PlanJob;
use crate::source::cubejobs_plan::codes::DONE;
use crate::source::cubejobs_plan::states::{RESERVED, RUNS, WAITS};
use crate::source::sched_core::{Forecast, NEVER, Place, SchedJob, SchedRun, Scheduler};

// The names of a job, and how many waiting jobs come before it.
#[derive(Clone, Copy)]
struct Names {
    ticket: u64,
    arrival: u64,
    before: u64,
}

// Where a job is, and until when.
#[derive(Clone, Copy)]
struct Spot {
    state: u32,
    base: u64,
    dim: u32,
    time: u64,
}

// Makes the answer of a refused call.
pub(crate) fn refused(code: u32) -> PlanJob {
    PlanJob {
        code,
        state: 0,
        ticket: 0,
        payload: 0,
        base: 0,
        time: 0,
        before: 0,
        arrival: 0,
        processors: 0,
        dim: 0,
        job_class: 0,
    }
}

// Makes the answer about a job at a spot.
#[inline(always)]
fn answer_of(names: Names, job: SchedJob, spot: Spot) -> PlanJob {
    PlanJob {
        code: DONE,
        state: spot.state,
        ticket: names.ticket,
        payload: job.payload,
        base: spot.base,
        time: spot.time,
        before: names.before,
        arrival: names.arrival,
        processors: job.processors,
        dim: spot.dim,
        job_class: job.class as u32,
    }
}

// Makes the answer about a running job.
#[inline(always)]
fn running(names: Names, run: SchedRun) -> PlanJob {
    let spot = Spot {
        state: RUNS,
        base: run.block.base,
        dim: run.block.dim,
        time: run.end,
    };
    answer_of(names, run.job, spot)
}

// Makes the answer about a waiting job with this forecast.
#[inline(always)]
fn waiting(names: Names, job: SchedJob, forecast: Forecast) -> PlanJob {
    if let Forecast::Promised(block, time) = forecast {
        let spot = Spot {
            state: RESERVED,
            base: block.base,
            dim: block.dim,
            time,
        };
        return answer_of(names, job, spot);
    }
    let spot = Spot {
        state: WAITS,
        base: 0,
        dim: job.dim as u32,
        time: NEVER,
    };
    answer_of(names, job, spot)
}

// Returns the answer about the job of a slot, with this number of jobs before it.
#[inline(always)]
fn described(scheduler: &Scheduler, slot: u32, before: u64) -> PlanJob {
    let names = Names {
        ticket: scheduler.ticket(slot),
        arrival: scheduler.arrival(slot),
        before,
    };
    let place = scheduler.place(slot);
    if let Place::Running(run) = place {
        return running(names, run);
    }
    let Place::Waiting(wait) = place else {
        unreachable!()
    };
    waiting(names, wait.job, scheduler.forecast(slot))
}

// Returns the answer about the job of a slot, except how many come before it.
pub(crate) fn listed(scheduler: &Scheduler, slot: u32) -> PlanJob {
    described(scheduler, slot, 0)
}

// Returns how many waiting jobs come before that of a slot.
#[inline(always)]
fn before(scheduler: &Scheduler, slot: u32) -> u64 {
    let Place::Waiting(_) = scheduler.place(slot) else {
        return 0;
    };
    scheduler.before(slot)
}

// Returns the answer about the job of a slot.
#[inline(always)]
pub(crate) fn answer_at(scheduler: &Scheduler, slot: u32) -> PlanJob {
    described(scheduler, slot, before(scheduler, slot))
}

/// Returns the answer about the job of a slot, which waits, and was submitted last.
pub(crate) fn answer_at_last(scheduler: &Scheduler, slot: u32) -> PlanJob {
    described(scheduler, slot, scheduler.before_last(slot))
}
