// Made from crates/sched_jobs/src/search.rt by checks/lib/erase.py. Change that file.
//! The first of the waiting jobs, by their queues.
//!
//! A search is a part of its callers, since each of them leaves out some of its cases.

use crate::source::sched_jobs::lines::{CLASSES, DIMS, first_in_line, first_within, key_at};
use crate::source::sched_jobs::nodes::QueueNode;
use crate::source::sched_jobs::queues::Queue;
use crate::source::cube_shape::MAX_BITMAP_DIM;

/// The jobs that a search looks for.
#[derive(Clone, Copy)]
pub(crate) struct Wanted {
    /// The dimensions below it are wanted.
    pub(crate) any: usize,
    /// The dimensions below it are wanted with a rank below the limit.
    pub(crate) most: usize,
    /// The limit of ranks.
    pub(crate) limit: u64,
}

// Returns the bound of the dimensions up to one, if there is one.
fn end_of(dim: Option<u32>) -> usize {
    let Some(largest) = dim else {
        return 0;
    };
    largest.min(MAX_BITMAP_DIM) as usize + 1
}

impl Wanted {
    /// Returns the jobs that need at most dimension `any`, or at most `most` and have a known
    /// estimate of at most `limit`.
    pub(crate) fn new(any: Option<u32>, most: Option<u32>, limit: u64) -> Wanted {
        Wanted {
            any: end_of(any),
            most: end_of(most),
            limit,
        }
    }
}

// Returns the slot of a line that is wanted and has the least key.
fn first_fit(
    nodes: &[QueueNode],
    queues: &[Queue],
    class: usize,
    dim: usize,
    wanted: &Wanted,
) -> Option<u32> {
    let at = class * DIMS + dim;
    if dim < wanted.any {
        return first_in_line(nodes, queues, at);
    }
    if dim >= wanted.most {
        return None;
    }
    if wanted.limit == 0 {
        return None;
    }
    first_within(nodes, queues, at, wanted.limit - 1)
}

// Returns the slot with the lesser key of at most two.
fn older(nodes: &[QueueNode], one: Option<u32>, other: Option<u32>) -> Option<u32> {
    let Some(second) = other else {
        return one;
    };
    let Some(first) = one else {
        return other;
    };
    if key_at(nodes, second) < key_at(nodes, first) {
        return other;
    }
    one
}

// Returns the slot of a class that is wanted and has the least key.
fn first_of_class(
    nodes: &[QueueNode],
    queues: &[Queue],
    class: usize,
    wanted: &Wanted,
) -> Option<u32> {
    let mut best: Option<u32> = None;
    let past = wanted.any.max(wanted.most).min(DIMS);
    for dim in 0..past {
        let one = first_fit(nodes, queues, class, dim, wanted);
        best = older(nodes, best, one);
    }
    best
}

// Returns the same. It skips a class without waiting jobs.
fn first_if_used(
    nodes: &[QueueNode],
    queues: &[Queue],
    counts: &[u64],
    class: usize,
    wanted: &Wanted,
) -> Option<u32> {
    let count = counts[class];
    if count == 0 {
        return None;
    }
    first_of_class(nodes, queues, class, wanted)
}

/// Returns the slot that is wanted, of the first class, with the least key there.
#[inline(always)]
pub(crate) fn first_of_all(
    nodes: &[QueueNode],
    queues: &[Queue],
    counts: &[u64],
    wanted: &Wanted,
) -> Option<u32> {
    for class in 0..CLASSES as usize {
        if let Some(slot) = first_if_used(nodes, queues, counts, class, wanted) {
            return Some(slot);
        }
    }
    None
}
