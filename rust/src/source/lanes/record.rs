// Made from crates/lanes/src/record.rt by checks/lib/erase.py. Change that file.

// What a producer and a worker are known to have done. Contracts alone see it, except for a job.
use crate::source::lanes::sizes::Plan;
use crate::source::kit::collections::LinkedList;

/// A job of a lane: its number, and what its producer gave.
#[derive(Clone, Copy, Debug, PartialEq, Eq)]
pub struct LaneJob {
    /// The number of jobs that the lane had accepted before it.
    pub seq: u64,
    /// A word of the producer.
    pub payload: u64,
    /// The dimension of the block that the job asks for: any number.
    pub dim: u32,
}

/// What the producer of a lane is known to have done.
#[must_use = "the proved source spends each value of this type by a call"]
pub struct LaneRecord {
    /// The lane's number.
    pub number: u32,
    /// The largest number of jobs in the lane.
    pub capacity: u64,
    /// The jobs that were accepted, in order.
    pub accepted: LinkedList<LaneJob>,
    /// The number of jobs that were taken, at the latest look that found room.
    pub seen: u64,
    /// The payload in the cell of the next job, until that job is accepted.
    pub payload: Option<u64>,
    /// The dimension in the cell of the next job, until that job is accepted.
    pub dim: Option<u64>,
    /// The number of jobs that were taken, at each look that found the lane full, in order.
    pub fulls: LinkedList<u64>,
    /// The number of accepted jobs, each time that the closed mark was there, in order.
    pub refused: LinkedList<u64>,
    /// The number of atomic steps of the producer.
    pub steps: u64,
}

/// What a worker found where it found no job.
#[must_use = "the proved source spends each value of this type by a call"]
pub struct Sight {
    /// The number of accepted jobs, all of them taken.
    pub count: u64,
    /// Whether the closed mark was there.
    pub closed: bool,
}

/// What a worker is known to have done in one lane.
#[must_use = "the proved source spends each value of this type by a call"]
pub struct TakeRecord {
    /// The jobs that it took, in order.
    pub taken: LinkedList<LaneJob>,
    /// The number of jobs that were taken, at its latest look.
    pub head: u64,
    /// The largest number of accepted jobs that it has seen.
    pub tail: u64,
    /// What it has read in the cell for the payload of the job with the number `head`.
    pub payload: Option<u64>,
    /// What it has read in the cell for the dimension of that job.
    pub dim: Option<u64>,
    /// What it found where there was no job, in order.
    pub empties: LinkedList<Sight>,
    /// The number of each job that another worker took while this one tried, in order.
    pub lost: LinkedList<u64>,
    /// The number of its atomic steps in this lane.
    pub steps: u64,
}

/// What a worker is known to have done.
#[must_use = "the proved source spends each value of this type by a call"]
pub struct WorkerRecord {
    /// The worker's number.
    pub number: u32,
    /// The sizes, and which words the lanes have.
    pub plan: Plan,
    /// What it did in each lane.
    pub lanes: LinkedList<TakeRecord>,
}
