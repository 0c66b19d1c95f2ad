// Made from crates/sched_jobs/src/lines.rt by checks/lib/erase.py. Change that file.
//! Waiting slots in queues, one for each class and dimension.

use crate::source::sched_jobs::nodes::QueueNode;
use crate::source::sched_jobs::queues::{Queue, oldest, oldest_within, push, queues_rest_on_their_slots, remove};
use crate::source::cube_shape::MAX_BITMAP_DIM;

/// The number of classes. The class of a job is below it.
pub const CLASSES: u8 = 8;

/// The number of dimensions of blocks.
pub(crate) const DIMS: usize = MAX_BITMAP_DIM as usize + 1;

/// The number of lines: one for each class and dimension.
pub(crate) const LINES: usize = CLASSES as usize * DIMS;

/// Returns the key of a slot.
pub(crate) fn key_at(nodes: &[QueueNode], slot: u32) -> u64 {
    nodes[slot as usize].key
}

/// Writes the key of a slot that is in no line.
pub(crate) fn put_key(nodes: &mut [QueueNode], slot: u32, key: u64) {
    nodes[slot as usize].key = key;
    queues_rest_on_their_slots();
}

/// Returns the rank of a slot.
pub(crate) fn rank_at(nodes: &[QueueNode], slot: u32) -> u64 {
    nodes[slot as usize].estimate
}

/// Writes the rank of a slot that is in no line.
pub(crate) fn put_rank(nodes: &mut [QueueNode], slot: u32, rank: u64) {
    nodes[slot as usize].estimate = rank;
    queues_rest_on_their_slots();
}

/// Appends a slot to a queue, with a key above all keys of this queue.
pub(crate) fn join_line(
    nodes: &mut [QueueNode],
    queues: &mut [Queue],
    at: usize,
    slot: u32,
    key: u64,
    estimate: u64,
) {
    push(nodes, &mut queues[at], slot, key, estimate);
}

/// Removes a slot from its queue.
pub(crate) fn leave_line(nodes: &mut [QueueNode], queues: &mut [Queue], at: usize, slot: u32) {
    remove(nodes, &mut queues[at], slot);
}

/// Returns the slot with the least key in a line.
pub(crate) fn first_in_line(nodes: &[QueueNode], queues: &[Queue], at: usize) -> Option<u32> {
    oldest(nodes, &queues[at])
}

/// Returns the slot with the least key among those of a line with an estimate of at most `limit`.
pub(crate) fn first_within(
    nodes: &[QueueNode],
    queues: &[Queue],
    at: usize,
    limit: u64,
) -> Option<u32> {
    oldest_within(nodes, &queues[at], limit)
}
