// Made from crates/cubejobs_lanes/src/answers.rt by checks/lib/erase.py. Change that file.
//! The answers that callers in C see.

use crate::source::cubejobs_lanes::codes::{CLOSED, DONE, EMPTY, ENDED, FULL, LOST, SPENT};
use crate::source::lanes::{LaneJob, Looked, Submitted, Taken, TakenAny};

/// The answer of a submit.
#[repr(C)]
#[derive(Clone, Copy, Debug)]
pub struct SubmitAnswer {
    /// `DONE`, or why the job was not accepted.
    pub code: u32,
    /// The number of the job in its lane if it was accepted, else 0.
    pub seq: u64,
}

/// The answer of a call about a job. All is 0 except the code if there is no job.
#[repr(C)]
#[derive(Clone, Copy, Debug)]
pub struct JobAnswer {
    /// `DONE`, or why there is no job.
    pub code: u32,
    /// The lane of the job.
    pub lane: u32,
    /// The dimension of the job.
    pub dim: u32,
    /// The number of the job in its lane.
    pub seq: u64,
    /// The payload of the job.
    pub payload: u64,
    /// The number of jobs that were left in the lane.
    pub left: u64,
}

/// The answer of a close.
#[repr(C)]
#[derive(Clone, Copy, Debug)]
pub struct CloseAnswer {
    /// `DONE`, or why the call was refused.
    pub code: u32,
    /// The number of jobs that all lanes have accepted, else 0.
    pub accepted: u64,
}

/// The answer of a finish.
#[repr(C)]
#[derive(Clone, Copy, Debug)]
pub struct FinishAnswer {
    /// `DONE`, or why the call was refused.
    pub code: u32,
    /// The lane or the worker that is not back, if that is why, else 0.
    pub number: u32,
}

/// The answer of a look.
#[repr(C)]
#[derive(Clone, Copy, Debug)]
pub struct LookAnswer {
    /// `DONE`, or why there is no job.
    pub code: u32,
    /// The number of jobs in the lane that the worker knows of, else 0.
    pub jobs: u64,
}

impl LookAnswer {
    // Makes the answer of a look that found no job.
    pub(crate) fn none(code: u32) -> LookAnswer {
        LookAnswer { code, jobs: 0 }
    }

    // Makes the answer of a look.
    pub(crate) fn of(looked: Looked) -> LookAnswer {
        match looked {
            Looked::Jobs(jobs) => LookAnswer { code: DONE, jobs },
            Looked::NoneLeft => LookAnswer::none(EMPTY),
            Looked::AllTaken => LookAnswer::none(ENDED),
        }
    }
}

impl FinishAnswer {
    // Makes an answer that names no lane and no worker.
    pub(crate) fn of(code: u32) -> FinishAnswer {
        FinishAnswer { code, number: 0 }
    }
}

impl SubmitAnswer {
    // Makes the answer of a submit that was refused.
    #[inline(always)]
    pub(crate) fn refused(code: u32) -> SubmitAnswer {
        SubmitAnswer { code, seq: 0 }
    }

    // Makes the answer of a submit.
    #[inline(always)]
    pub(crate) fn of(submitted: Submitted) -> SubmitAnswer {
        match submitted {
            Submitted::Accepted(seq) => SubmitAnswer { code: DONE, seq },
            Submitted::Full => SubmitAnswer::refused(FULL),
            Submitted::Closed => SubmitAnswer::refused(CLOSED),
            Submitted::Spent => SubmitAnswer::refused(SPENT),
        }
    }
}

impl CloseAnswer {
    // Makes the answer of a close that was refused.
    pub(crate) fn refused(code: u32) -> CloseAnswer {
        CloseAnswer { code, accepted: 0 }
    }
}

impl JobAnswer {
    // Makes the answer of a call that has no job.
    #[inline(always)]
    pub(crate) fn none(code: u32) -> JobAnswer {
        JobAnswer {
            code,
            lane: 0,
            dim: 0,
            seq: 0,
            payload: 0,
            left: 0,
        }
    }

    // Makes the answer that has a job.
    #[inline(always)]
    pub(crate) fn job(lane: u32, job: LaneJob, left: u64) -> JobAnswer {
        let LaneJob { seq, payload, dim } = job;
        JobAnswer {
            code: DONE,
            lane,
            dim,
            seq,
            payload,
            left,
        }
    }

    // Makes the answer of a take.
    #[inline(always)]
    pub(crate) fn of(lane: u32, taken: Taken) -> JobAnswer {
        match taken {
            Taken::Job(job, left) => JobAnswer::job(lane, job, left),
            Taken::Empty => JobAnswer::none(EMPTY),
            Taken::Lost => JobAnswer::none(LOST),
            Taken::Ended => JobAnswer::none(ENDED),
        }
    }

    // Makes the answer of a take from any lane.
    #[inline(always)]
    pub(crate) fn of_any(taken: TakenAny) -> JobAnswer {
        match taken {
            TakenAny::AnyJob(lane, job, left) => JobAnswer::job(lane, job, left),
            TakenAny::NoJob => JobAnswer::none(EMPTY),
            TakenAny::AllEnded => JobAnswer::none(ENDED),
        }
    }
}
