// Made from crates/cubejobs_sched/src/worker_answers.rt by checks/lib/erase.py. Change that file.
//! Answers to workers, as callers in C read them.

use crate::source::cubejobs_sched::answer::SchedAnswer;
use crate::source::cubejobs_sched::answers::{flag, refused};
use crate::source::cubejobs_sched::codes::{CLOSED, DONE, FULL, NO_JOB, WRONG_STATE};
use crate::source::sched_threads::{Served, ThreadStart, WrongState};

// Returns the job that starts. Without one, all is 0.
fn start_or_none(start: Option<ThreadStart>) -> ThreadStart {
    match start {
        Some(start) => start,
        None => ThreadStart {
            ticket: 0,
            payload: 0,
            base: 0,
            processors: 0,
        },
    }
}

// Returns the answer that has what a worker got.
fn of_served(code: u32, served: Served) -> SchedAnswer {
    let start = start_or_none(served.start);
    SchedAnswer {
        code,
        count: served.woken.count,
        first: served.woken.first,
        second: served.woken.second,
        third: served.woken.third,
        fourth: served.woken.fourth,
        more: flag(served.more),
        over: flag(served.over),
        ticket: start.ticket,
        payload: start.payload,
        base: start.base,
        processors: start.processors,
        worker: 0,
    }
}

// Returns whether a worker got a job, and if not, whether all is over.
fn code_of_next(start: Option<ThreadStart>, over: bool) -> u32 {
    match start {
        Some(_) => DONE,
        None => { if over { CLOSED } else { NO_JOB } }
    }
}

// Returns whether a worker got a job.
fn code_of_give(start: Option<ThreadStart>) -> u32 {
    match start {
        Some(_) => DONE,
        None => NO_JOB,
    }
}

// Returns the answer to a thread that asks to be a worker.
pub(crate) fn of_sit(answer: Option<u32>) -> SchedAnswer {
    match answer {
        Some(worker) => SchedAnswer {
            worker,
            ..refused(DONE)
        },
        None => refused(FULL),
    }
}

// Returns the answer to a worker that asks for its next job.
pub(crate) fn of_next(answer: Result<Served, WrongState>) -> SchedAnswer {
    match answer {
        Ok(served) => of_served(code_of_next(served.start, served.over), served),
        Err(_) => refused(WRONG_STATE),
    }
}

// Returns the answer to a worker that waits no longer.
pub(crate) fn of_give_up(answer: Result<Served, WrongState>) -> SchedAnswer {
    match answer {
        Ok(served) => of_served(code_of_give(served.start), served),
        Err(_) => refused(WRONG_STATE),
    }
}

// Returns the answer to a worker whose job ends.
pub(crate) fn of_end(answer: Result<Served, WrongState>) -> SchedAnswer {
    match answer {
        Ok(served) => of_served(DONE, served),
        Err(_) => refused(WRONG_STATE),
    }
}
