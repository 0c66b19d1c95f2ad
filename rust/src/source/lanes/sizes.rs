// Made from crates/lanes/src/sizes.rt by checks/lib/erase.py. Change that file.

// The sizes of lanes, and where their words are.

/// The largest number of lanes.
pub const MAX_LANES: u32 = 1 << 12;

/// The largest number of workers.
pub const MAX_WORKERS: u32 = 1 << 12;

/// The largest capacity of a lane, in jobs.
pub const MAX_CAPACITY: u64 = 1 << 10;

/// The largest number of jobs that a lane accepts.
pub const MAX_JOBS: u64 = 1 << 62;

// The largest number of words before those of the lanes.
pub(crate) const MAX_BASE: u64 = 1 << 20;

// The closed mark in the first word of a lane. Below it is the count of accepted jobs.
pub(crate) const CLOSED: u64 = 1 << 63;

// Of a lane's words: the count of accepted jobs, the count of taken jobs, and the first cell. Each
// is 128 bytes from what is before it, as processors fetch cache lines in pairs.
pub(crate) const TAIL: usize = 16;

pub(crate) const HEAD: usize = 32;

pub(crate) const CELLS: usize = 48;

/// The numbers of lanes and of workers, and the capacity of each lane.
#[derive(Clone, Copy, Debug, PartialEq, Eq)]
pub struct Sizes {
    /// The number of lanes, which are numbered from 0.
    pub lanes: u32,
    /// The number of workers, which are numbered from 0.
    pub workers: u32,
    /// The largest number of jobs in a lane, accepted and not taken.
    pub capacity: u64,
}

/// The sizes, and which words the lanes have.
#[derive(Clone, Copy, Debug, PartialEq, Eq)]
pub struct Plan {
    /// The number of words before those of the lanes.
    pub base: u64,
    /// The number of workers that may sleep: none, or all.
    pub sleepers: u32,
    /// The sizes.
    pub sizes: Sizes,
}
