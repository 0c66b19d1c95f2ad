// Made from crates/fit_tree/src/writes.rt by checks/lib/erase.py. Change that file.
//! Writes of rooms. A process may be ended between any two of them. Then the taken nodes with none
//! taken above them are those before the call, or those after it.

use crate::source::fit_tree::counts::{write_own, write_room};
use crate::source::fit_tree::head::COUNT_PLACES;
use crate::source::fit_tree::walks::mend;
use crate::source::cube_shape::MAX_BITMAP_DIM;
use core::sync::atomic::{Ordering, compiler_fence};

/// Sets the room of a node whose block is taken or released as one block, and then mends those
/// above it.
pub(crate) fn set_room(
    counts: &mut [u32; COUNT_PLACES],
    rooms: &mut [u8],
    n: u32,
    k: u32,
    node: usize,
    room: u8,
) {
    write_own(counts, rooms, n, k, node, room);
    compiler_fence(Ordering::SeqCst);
    mend(counts, rooms, n, k, node);
}

/// Takes the two children of a node that was taken, and then releases the node. The children have
/// dimension `dim`. No room above the node changes.
pub(crate) fn split_node(
    counts: &mut [u32; COUNT_PLACES],
    rooms: &mut [u8],
    n: u32,
    dim: u32,
    node: usize,
) {
    write_room(counts, rooms, n, dim, 2 * node, 0);
    write_room(counts, rooms, n, dim, 2 * node + 1, 0);
    compiler_fence(Ordering::SeqCst);
    write_room(counts, rooms, n, dim + 1, node, 1);
}

/// Takes a node of which both children were taken, and then makes these as if free. They have
/// dimension `dim`. No room above the node changes.
pub(crate) fn join_node(
    counts: &mut [u32; COUNT_PLACES],
    rooms: &mut [u8],
    n: u32,
    dim: u32,
    node: usize,
) {
    write_room(counts, rooms, n, dim + 1, node, 0);
    compiler_fence(Ordering::SeqCst);
    write_room(counts, rooms, n, dim, 2 * node, dim as u8 + 2);
    write_room(counts, rooms, n, dim, 2 * node + 1, dim as u8 + 2);
}

// Sets the rooms from `start` on and below `end`.
fn fill(rooms: &mut [u8], start: usize, end: usize, room: u8) {
    rooms[start..end].fill(room);
}

// Makes all nodes of a level wholly free.
fn fill_level(rooms: &mut [u8], n: u32, depth: u32) {
    let first = 1 << depth;
    fill(rooms, first, 2 * first, (n - depth) as u8 + 2);
}

/// Makes all nodes wholly free.
pub(crate) fn clear_all(rooms: &mut [u8], n: u32) {
    rooms[0] = 0;
    for depth in 0..n + 1 {
        fill_level(rooms, n, depth);
    }
}
