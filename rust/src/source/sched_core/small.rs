// Made from crates/sched_core/src/small.rt by checks/lib/erase.py. Change that file.
//! Steps on numbers and reservations.

use crate::source::sched_core::assigned::Assigned;
use crate::source::cube_shape::{MAX_BITMAP_DIM, Region};
use crate::source::sched_law::{NEVER, SchedJob};

/// Returns the estimated end of a job with this estimate that starts now.
pub(crate) fn end_of(now: u64, estimate: u64) -> u64 {
    if estimate == 0 {
        return NEVER;
    }
    now.saturating_add(estimate)
}

/// Returns the longest estimate with which a job that starts now ends by a known time, or 0.
pub(crate) fn slack(latest: u64, now: u64) -> u64 {
    if latest == NEVER {
        return 0;
    }
    latest.saturating_sub(now)
}

/// Returns whether less has passed a job than this many times the machine.
pub(crate) fn is_patient(passed: u64, patience: u32, dim: u32) -> bool {
    if passed >= patience as u64 * (1 << dim) {
        return false;
    }
    true
}

/// Ends a reservation, if it is that of this slot.
pub(crate) fn forget(kept: &mut Option<Assigned>, slot: u32) {
    let Some(it) = *kept else {
        return;
    };
    if it.slot == slot {
        *kept = None;
    }
}

/// Returns whether job `i` comes before job `j` in order.
pub(crate) fn precedes(first: &SchedJob, i: u64, second: &SchedJob, j: u64) -> bool {
    if first.class < second.class {
        return true;
    }
    if first.class > second.class {
        return false;
    }
    if i >= j {
        return false;
    }
    true
}

// Returns whether two blocks have a processor in common.
fn overlap(n: u32, a: Region, b: Region) -> bool {
    if a.base >= b.base + (1 << b.dim) {
        return false;
    }
    if b.base >= a.base + (1 << a.dim) {
        return false;
    }
    true
}

/// Returns the reservation, if its block has no part of this one.
pub(crate) fn beside(n: u32, block: Region, kept: Option<Assigned>) -> Option<Assigned> {
    let Some(it) = kept else {
        return None;
    };
    if overlap(n, block, it.block) {
        return None;
    }
    kept
}
