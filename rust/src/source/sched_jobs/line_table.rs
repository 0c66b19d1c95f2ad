// Made from crates/sched_jobs/src/line_table.rt by checks/lib/erase.py. Change that file.
//! The queues of the waiting jobs of a table.

use crate::source::sched_jobs::counts::{total, total_of_classes};
use crate::source::sched_jobs::lines::{
    CLASSES, DIMS, LINES, join_line, key_at, leave_line, put_key, put_rank, rank_at,
};
use crate::source::sched_jobs::nodes::{MAX_SLOTS, QueueNode};
use crate::source::sched_jobs::queues::Queue;
use crate::source::sched_jobs::search::{Wanted, first_of_all};
use crate::source::cube_shape::MAX_BITMAP_DIM;
use crate::source::kit::fixed_vec::{FixedVec, Store};
use crate::source::sched_law::{NEVER, SchedJob};
use crate::source::kit::alloc::AllocError;

/// A queue for each class and dimension, over one node for each slot.
pub struct LineTable {
    pub(crate) nodes: FixedVec<QueueNode>,
    pub(crate) queues: FixedVec<Queue>,
    /// How many slots of each class wait.
    pub(crate) counts: FixedVec<u64>,
}

// Returns the rank of an estimate: the largest number if it is not known.
fn rank(estimate: u64) -> u64 {
    if estimate == 0 {
        return NEVER;
    }
    estimate - 1
}

// Returns the line of a job.
fn line_number(job: &SchedJob) -> usize {
    job.class as usize * DIMS + job.dim as usize
}

// Counts one more slot of a class.
fn count_one(counts: &mut [u64], class: usize) {
    counts[class] += 1;
}

// Counts one slot less of a class.
fn discount_one(counts: &mut [u64], class: usize) {
    counts[class] -= 1;
}

impl LineTable {
    /// Creates empty queues for this many slots, in memory of a store.
    pub(crate) fn new(store: &mut Store, capacity: usize) -> Result<Self, AllocError> {
        let nodes = store.filled(QueueNode::UNUSED, capacity, 5 * capacity)?;
        let queues = store.filled(Queue::new(), LINES, LINES)?;
        let counts = store.filled(0, CLASSES as usize, CLASSES as usize)?;
        Ok(LineTable {
            nodes,
            queues,
            counts,
        })
    }

    /// Returns the key of a slot.
    pub(crate) fn key(&self, slot: u32) -> u64 {
        key_at(&self.nodes, slot)
    }

    /// Returns the free slot after a free one, or the number of slots.
    pub(crate) fn free_after(&self, slot: u32) -> u32 {
        let link = self.key(slot);
        if link == 0 {
            return slot + 1;
        }
        (link - 1) as u32
    }

    /// Returns the free slot before a free one that is not the first.
    pub(crate) fn free_before(&self, slot: u32) -> u32 {
        let back = rank_at(&self.nodes, slot);
        if back == 0 {
            return slot.saturating_sub(1);
        }
        (back - 1) as u32
    }

    /// Returns the slot that is wanted, of the first class, with the least key there.
    #[inline(always)]
    pub(crate) fn first(&self, wanted: &Wanted) -> Option<u32> {
        first_of_all(&self.nodes, &self.queues, &self.counts, wanted)
    }

    /// Returns the number of slots with a key below the bound in the lines from `first` on, up to
    /// `end`, which is left out.
    pub(crate) fn count(&self, first: usize, end: usize, bound: u64) -> u64 {
        total(&self.nodes, &self.queues, first, end, bound)
    }

    /// Returns the number of slots in the lines of the classes below `end`.
    pub(crate) fn count_classes(&self, end: usize) -> u64 {
        total_of_classes(&self.counts, end)
    }

    /// Appends a slot to the line of its job, with a key above all keys there.
    pub(crate) fn join(&mut self, job: &SchedJob, slot: u32, key: u64) {
        let at = line_number(job);
        let estimate = rank(job.estimate);
        join_line(&mut self.nodes, &mut self.queues, at, slot, key, estimate);
        count_one(&mut self.counts, job.class as usize);
    }

    /// Removes a slot from the line of its job.
    pub(crate) fn leave(&mut self, job: &SchedJob, slot: u32) {
        let at = line_number(job);
        leave_line(&mut self.nodes, &mut self.queues, at, slot);
        discount_one(&mut self.counts, job.class as usize);
    }

    /// Writes the key of a slot that is in no line.
    pub(crate) fn set_key(&mut self, slot: u32, key: u64) {
        put_key(&mut self.nodes, slot, key);
    }

    /// Writes the rank of a slot that is in no line.
    pub(crate) fn set_rank(&mut self, slot: u32, rank: u64) {
        put_rank(&mut self.nodes, slot, rank);
    }

    /// Links a free slot to the next one, and this one, if it is one of the table, back to it.
    pub(crate) fn link(&mut self, slot: u32, next: u32) {
        self.set_key(slot, next as u64 + 1);
        if next as usize >= self.nodes.len() {
            return;
        }
        self.set_rank(next, slot as u64 + 1);
    }
}
