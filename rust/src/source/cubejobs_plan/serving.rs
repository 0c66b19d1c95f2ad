// Made from crates/cubejobs_plan/src/serving.rt by checks/lib/erase.py. Change that file.
//! Blocks go out of service, and into it again.

use crate::source::cubejobs_plan::codes::{DONE, OUT_OF_RANGE, WRONG_STATE};
use crate::source::cube_shape::Region;
use crate::source::fit_tree::image;
use crate::source::sched_core::Scheduler;

/// Takes a block out of service.
pub(crate) fn occupy(scheduler: &mut Scheduler, region: Region) -> u32 {
    if !image::is_aligned(scheduler.dim(), region) {
        return OUT_OF_RANGE;
    }
    if !scheduler.occupy(region) {
        return WRONG_STATE;
    }
    DONE
}

/// Puts a block back into service.
pub(crate) fn vacate(scheduler: &mut Scheduler, region: Region) -> u32 {
    if !image::is_aligned(scheduler.dim(), region) {
        return OUT_OF_RANGE;
    }
    if !scheduler.vacate(region) {
        return WRONG_STATE;
    }
    DONE
}
