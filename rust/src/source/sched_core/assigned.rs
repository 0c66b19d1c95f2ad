// Made from crates/sched_core/src/assigned.rt by checks/lib/erase.py. Change that file.
//! Jobs in slots with their blocks.

use crate::source::cube_shape::Region;

/// A block for the job of a slot.
#[derive(Clone, Copy, Debug, PartialEq, Eq, Hash)]
pub struct Assigned {
    /// The slot of the job.
    pub slot: u32,
    /// The block.
    pub block: Region,
}

/// What is known of when and where a job runs.
#[derive(Clone, Copy, Debug, PartialEq, Eq, Hash)]
pub enum Forecast {
    /// The slot has no job.
    Nothing,
    /// The job waits, and no block is reserved for it.
    Queued,
    /// The job waits for this block, which is reserved for it. The jobs in it end by this time, or
    /// the end of one is not known and this is `NEVER`.
    Promised(Region, u64),
    /// The job runs in this block. This is its estimated end, or `NEVER`.
    Started(Region, u64),
}

/// A job that may start, its block, and the head. The job is the head, or it passes it.
#[derive(Clone, Copy)]
pub(crate) struct Decision {
    pub(crate) slot: u32,
    pub(crate) head: u32,
    pub(crate) block: Region,
}
