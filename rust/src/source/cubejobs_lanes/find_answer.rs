// Made from crates/cubejobs_lanes/src/find_answer.rt by checks/lib/erase.py. Change that file.
//! The answers of the calls by which workers sleep and wake each other.

use crate::source::cubejobs_lanes::codes::{AGAIN, DONE, ENDED, NO_WORKER, NOBODY, PARK};
use crate::source::lanes::{Found, LaneJob};
use crate::source::wake_calls::Wake;

/// The answer of a call that finds a job or lets the worker lie down. All is 0 except the code and
/// `woken` if there is no job.
#[repr(C)]
#[derive(Clone, Copy, Debug)]
pub struct FindAnswer {
    /// `DONE`, or why there is no job.
    pub code: u32,
    /// The lane of the job.
    pub lane: u32,
    /// The dimension of the job.
    pub dim: u32,
    /// The number of the worker that was given its token, or `NO_WORKER`.
    pub woken: u32,
    /// The number of the job in its lane.
    pub seq: u64,
    /// The payload of the job.
    pub payload: u64,
    /// The number of jobs that were left in the lane.
    pub left: u64,
}

/// The answer of a call that wakes a worker.
#[repr(C)]
#[derive(Clone, Copy, Debug)]
pub struct WakeAnswer {
    /// `DONE`, or why no worker is to be woken.
    pub code: u32,
    /// The number of the worker that was given its token, else 0.
    pub worker: u32,
}

/// The answer of a call for the number of a worker.
#[repr(C)]
#[derive(Clone, Copy, Debug)]
pub struct NumberAnswer {
    /// `DONE`, or why the call was refused.
    pub code: u32,
    /// The number of the worker, else 0.
    pub number: u32,
}

// Returns the number of a woken worker, or `NO_WORKER`.
pub(crate) fn number_of(woken: Option<u32>) -> u32 {
    match woken {
        Some(number) => number,
        None => NO_WORKER,
    }
}

impl FindAnswer {
    // Makes an answer without a job.
    pub(crate) fn none(code: u32, woken: u32) -> FindAnswer {
        FindAnswer {
            code,
            lane: 0,
            dim: 0,
            woken,
            seq: 0,
            payload: 0,
            left: 0,
        }
    }

    // Makes the answer of a call that found this.
    pub(crate) fn of(found: Found, woken: u32) -> FindAnswer {
        match found {
            Found::Job(lane, job, left) => {
                let LaneJob { seq, payload, dim } = job;
                FindAnswer {
                    code: DONE,
                    lane,
                    dim,
                    woken,
                    seq,
                    payload,
                    left,
                }
            }
            Found::Ended => FindAnswer::none(ENDED, woken),
            Found::Park => FindAnswer::none(PARK, woken),
            Found::Again => FindAnswer::none(AGAIN, woken),
        }
    }
}

impl WakeAnswer {
    // Makes an answer without a worker.
    pub(crate) fn none(code: u32) -> WakeAnswer {
        WakeAnswer { code, worker: 0 }
    }

    // Makes the answer of a wake.
    pub(crate) fn of(wake: Wake) -> WakeAnswer {
        match wake {
            Wake::Worker(worker) => WakeAnswer { code: DONE, worker },
            Wake::Nobody => WakeAnswer::none(NOBODY),
            Wake::Again(_) => WakeAnswer::none(AGAIN),
        }
    }
}

impl NumberAnswer {
    // Makes the answer of a call that was refused.
    pub(crate) fn refused(code: u32) -> NumberAnswer {
        NumberAnswer { code, number: 0 }
    }
}
