// Made from crates/cubejobs_lanes/src/sizes.rt by checks/lib/erase.py. Change that file.
//! The sizes of lanes, as C passes them.

use crate::source::lanes::{MAX_CAPACITY, MAX_LANES, MAX_WORKERS, Sizes};

/// The number of lanes and of workers, and the number of jobs that a lane holds.
#[repr(C)]
#[derive(Clone, Copy, Debug)]
pub struct LaneSizes {
    pub lanes: u32,
    pub workers: u32,
    pub capacity: u64,
}

impl LaneSizes {
    // Returns whether all three are in their limits.
    pub(crate) fn are_in_limits(self) -> bool {
        let lanes = self.lanes > 0 && self.lanes <= MAX_LANES;
        let workers = self.workers > 0 && self.workers <= MAX_WORKERS;
        let capacity = self.capacity > 0 && self.capacity <= MAX_CAPACITY;
        lanes && workers && capacity
    }

    // Returns the sizes as `lanes` takes them.
    pub(crate) fn sizes(self) -> Sizes {
        let LaneSizes {
            lanes,
            workers,
            capacity,
        } = self;
        Sizes {
            lanes,
            workers,
            capacity,
        }
    }
}
