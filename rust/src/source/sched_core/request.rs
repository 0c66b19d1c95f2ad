// Made from crates/sched_core/src/request.rt by checks/lib/erase.py. Change that file.
//! A job as callers ask for it.

use crate::source::cube_shape::MAX_BITMAP_DIM;
use crate::source::sched_jobs::CLASSES;
use crate::source::sched_law::SchedJob;

/// A job as it is submitted.
#[repr(C)]
#[derive(Clone, Copy, Debug)]
pub struct JobRequest {
    /// A number of the caller's.
    pub payload: u64,
    /// How long it runs at most, or 0 if that is not known.
    pub estimate: u64,
    /// How many processors it uses.
    pub processors: u32,
    /// Its class. Jobs of a lower class come first.
    pub job_class: u32,
}

// Returns the least dimension of a block with as many processors.
fn least_dim(count: u32) -> u32 {
    u32::BITS - (count - 1).leading_zeros()
}

/// Returns whether a machine of dimension `n` can have the job.
///
/// # Clauses of the proved source
///
/// - requires: `n ≤ MAX_BITMAP_DIM`
/// - ensures: `IsTrue result ↔ IsAskable n request`
pub fn is_askable(n: u32, request: JobRequest) -> bool {
    if request.processors == 0 {
        return false;
    }
    if request.processors > 1 << n {
        return false;
    }
    if request.job_class >= CLASSES as u32 {
        return false;
    }
    true
}

/// Returns the job that is asked for.
///
/// # Clauses of the proved source
///
/// - requires limit: `n ≤ MAX_BITMAP_DIM`
/// - requires askable: `IsAskable n request`
/// - ensures asked: `IsAsked request result`
/// - ensures sound: `IsSound n result`
/// - ensures class: `result.class < CLASSES`
pub fn job_of(n: u32, request: JobRequest) -> SchedJob {
    SchedJob {
        payload: request.payload,
        processors: request.processors,
        dim: least_dim(request.processors) as u8,
        class: request.job_class as u8,
        estimate: request.estimate,
    }
}
