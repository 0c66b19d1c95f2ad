// Made from crates/sched_law/src/job.rt by checks/lib/erase.py. Change that file.
//! Jobs, where they are, and the one reservation.

use crate::source::cube_shape::Region;

/// The time that is not known. It is later than any time.
pub const NEVER: u64 = u64::MAX;

/// A job as it is submitted.
#[derive(Clone, Copy, Debug, PartialEq, Eq, Hash)]
pub struct SchedJob {
    /// A number of the caller's.
    pub payload: u64,
    /// How many processors it uses, from 1 on.
    pub processors: u32,
    /// The dimension of the block that it needs: the least one with as many processors.
    pub dim: u8,
    /// Its class. Jobs of a lower class come first.
    pub class: u8,
    /// How long it runs at most, from 1 on, or 0 if that is not known.
    pub estimate: u64,
}

/// A job that waits.
#[derive(Clone, Copy, Debug, PartialEq, Eq, Hash)]
pub struct SchedWait {
    /// The job.
    pub job: SchedJob,
    /// How many processors the jobs got that started while it was the head. From the largest number
    /// of 64 bits on it is not counted further.
    pub passed: u64,
}

/// A job that was started and has not ended.
#[derive(Clone, Copy, Debug, PartialEq, Eq, Hash)]
pub struct SchedRun {
    /// The job.
    pub job: SchedJob,
    /// Its block.
    pub block: Region,
    /// Its estimated end, or `NEVER`.
    pub end: u64,
}

/// Where a job is.
#[derive(Clone, Copy, Debug, PartialEq, Eq, Hash)]
pub enum Place {
    /// It was not submitted yet, or it is over: it ended or was cancelled.
    Absent,
    /// It waits for a block.
    Waiting(SchedWait),
    /// It runs in its block.
    Running(SchedRun),
}

/// The block that is kept for a waiting job.
#[derive(Clone, Copy, Debug, PartialEq, Eq, Hash)]
pub struct Reservation {
    /// The number of the job.
    pub job: u64,
    /// The block.
    pub block: Region,
}
