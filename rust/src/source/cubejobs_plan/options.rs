// Made from crates/cubejobs_plan/src/options.rt by checks/lib/erase.py. Change that file.
//! What a planner is opened for.

use crate::source::cube_shape::MAX_BITMAP_DIM;
use crate::source::sched_core::MAX_SLOTS;

/// What a planner is opened for.
#[repr(C)]
#[derive(Clone, Copy, Debug)]
pub struct Options {
    /// The machine has `2^dim` processors.
    pub dim: u32,
    /// How many jobs may wait and run at once.
    pub jobs: u32,
    /// How many times the machine passes a job before a block is reserved for it in any case.
    pub patience: u32,
    /// 0.
    pub flags: u32,
}

// Returns whether all options are in range.
pub(crate) fn are_in_range(options: Options) -> bool {
    if options.dim > MAX_BITMAP_DIM {
        return false;
    }
    if options.jobs == 0 {
        return false;
    }
    if options.jobs as usize > MAX_SLOTS {
        return false;
    }
    if options.flags != 0 {
        return false;
    }
    true
}
