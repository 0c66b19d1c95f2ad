// Made from crates/sched_jobs/src/counts.rt by checks/lib/erase.py. Change that file.
//! How many slots are in lines.

use crate::source::sched_jobs::lines::{CLASSES, LINES};
use crate::source::sched_jobs::nodes::QueueNode;
use crate::source::sched_jobs::queues::{Queue, count_before};

/// Returns the number of slots with a key below the bound in the lines from `first` on, up to
/// `end`, which is left out.
pub(crate) fn total(
    nodes: &[QueueNode],
    queues: &[Queue],
    first: usize,
    end: usize,
    bound: u64,
) -> u64 {
    let mut count = 0;
    for at in first..end {
        count += count_before(nodes, &queues[at], bound) as u64;
    }
    count
}

/// Returns the number of slots in the lines of the classes below `end`.
pub(crate) fn total_of_classes(counts: &[u64], end: usize) -> u64 {
    let mut count = 0;
    for class in 0..end {
        count += counts[class];
    }
    count
}
