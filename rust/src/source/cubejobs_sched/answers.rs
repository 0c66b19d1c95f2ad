// Made from crates/cubejobs_sched/src/answers.rt by checks/lib/erase.py. Change that file.
//! Answers of a scheduler, as callers in C read them.

use crate::source::cubejobs_sched::answer::SchedAnswer;
use crate::source::cubejobs_sched::codes::{CLOSED, DONE, FULL, NO_JOB, OUT_OF_RANGE, WRONG_STATE};
use crate::source::sched_threads::{BlockError, CancelError, Effect, RestJob, SubmitError, WrongState};

// Returns an answer with nothing but a code.
pub(crate) fn refused(code: u32) -> SchedAnswer {
    SchedAnswer {
        code,
        count: 0,
        first: 0,
        second: 0,
        third: 0,
        fourth: 0,
        more: 0,
        over: 0,
        ticket: 0,
        payload: 0,
        base: 0,
        processors: 0,
        worker: 0,
    }
}

// Returns 1 if it holds, else 0.
pub(crate) fn flag(holds: bool) -> u32 {
    if holds { 1 } else { 0 }
}

// Returns the answer that names what followed for workers.
pub(crate) fn of_effect(effect: Effect, ticket: u64, payload: u64) -> SchedAnswer {
    SchedAnswer {
        code: DONE,
        count: effect.woken.count,
        first: effect.woken.first,
        second: effect.woken.second,
        third: effect.woken.third,
        fourth: effect.woken.fourth,
        more: flag(effect.more),
        over: flag(effect.over),
        ticket,
        payload,
        base: 0,
        processors: 0,
        worker: 0,
    }
}

// Returns the code of a job that is not submitted.
fn code_of_submit(why: SubmitError) -> u32 {
    match why {
        SubmitError::OutOfRange => OUT_OF_RANGE,
        SubmitError::Closed => CLOSED,
        SubmitError::Full => FULL,
    }
}

// Returns the code of a job that is not cancelled.
fn code_of_cancel(why: CancelError) -> u32 {
    match why {
        CancelError::NoJob => NO_JOB,
        CancelError::Runs => WRONG_STATE,
    }
}

// Returns the answer to a submit.
pub(crate) fn of_submit(answer: Result<(u64, Effect), SubmitError>) -> SchedAnswer {
    match answer {
        Ok((ticket, effect)) => of_effect(effect, ticket, 0),
        Err(why) => refused(code_of_submit(why)),
    }
}

// Returns the answer to a cancel.
pub(crate) fn of_cancel(ticket: u64, answer: Result<(u64, Effect), CancelError>) -> SchedAnswer {
    match answer {
        Ok((payload, effect)) => of_effect(effect, ticket, payload),
        Err(why) => refused(code_of_cancel(why)),
    }
}

// Returns the code of a block that stays as it is.
fn code_of_block(why: BlockError) -> u32 {
    match why {
        BlockError::OutOfRange => OUT_OF_RANGE,
        BlockError::WrongState => WRONG_STATE,
    }
}

// Returns the answer to a call on a block.
pub(crate) fn of_block(answer: Result<Effect, BlockError>) -> SchedAnswer {
    match answer {
        Ok(effect) => of_effect(effect, 0, 0),
        Err(why) => refused(code_of_block(why)),
    }
}

// Returns the answer to a close.
pub(crate) fn of_close(answer: Option<Effect>) -> SchedAnswer {
    match answer {
        Some(effect) => of_effect(effect, 0, 0),
        None => refused(CLOSED),
    }
}

// Returns the answer that gives a job back.
pub(crate) fn of_rest(answer: Result<Option<RestJob>, WrongState>) -> SchedAnswer {
    match answer {
        Ok(Some(rest)) => SchedAnswer {
            ticket: rest.ticket,
            payload: rest.payload,
            worker: rest.slot,
            ..refused(DONE)
        },
        Ok(None) => refused(NO_JOB),
        Err(_) => refused(WRONG_STATE),
    }
}
