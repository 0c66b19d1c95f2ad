// Made from crates/cubejobs_sched/src/options.rt by checks/lib/erase.py. Change that file.
//! What a scheduler is opened for.

use crate::source::cube_shape::MAX_BITMAP_DIM;
use crate::source::sched_board::{MAX_SLOTS, MAX_WORKERS};

/// What a scheduler is opened for.
#[repr(C)]
#[derive(Clone, Copy, Debug)]
pub struct SchedOptions {
    /// The machine has `2^dim` processors.
    pub dim: u32,
    /// How many jobs may wait and run at once.
    pub jobs: u32,
    /// How many times the machine passes a job before a block is reserved for it in any case.
    pub patience: u32,
    /// How many workers there are.
    pub workers: u32,
}

// Returns whether all options are in range.
pub(crate) fn are_in_range(options: SchedOptions) -> bool {
    if options.dim > MAX_BITMAP_DIM {
        return false;
    }
    if options.jobs == 0 || options.jobs as usize > MAX_SLOTS {
        return false;
    }
    if options.workers == 0 || options.workers > MAX_WORKERS {
        return false;
    }
    true
}
