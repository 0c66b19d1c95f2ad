// Made from crates/fit_tree/src/counts.rt by checks/lib/erase.py. Change that file.
//! The counts of maximal free blocks, and writes of a room that keep them right.

use crate::source::fit_tree::head::COUNT_PLACES;
use crate::source::cube_shape::MAX_BITMAP_DIM;

// Returns whether a node is a maximal free block if it is wholly free.
fn is_topped(rooms: &[u8], dim: u32, node: usize) -> bool {
    if node == 1 {
        return true;
    }
    let above = rooms[node / 2];
    above != 0 && above != dim as u8 + 3
}

// Returns 1 if a node is wholly free and a maximal block then, else 0.
fn weight_of(dim: u32, room: u8, is_topped: bool) -> u32 {
    if is_topped && room == dim as u8 + 2 {
        1
    } else {
        0
    }
}

// Returns 1 if a node is a maximal free block, else 0.
fn weigh(rooms: &[u8], dim: u32, node: usize) -> u32 {
    let is_topped = is_topped(rooms, dim, node);
    weight_of(dim, rooms[node], is_topped)
}

// Returns 1 if a node is wholly free, else 0.
fn weigh_whole(rooms: &[u8], dim: u32, node: usize) -> u32 {
    if rooms[node] == dim as u8 + 2 { 1 } else { 0 }
}

// Returns the number of children of a node that are wholly free.
fn whole_children(rooms: &[u8], dim: u32, node: usize) -> u32 {
    weigh_whole(rooms, dim, 2 * node) + weigh_whole(rooms, dim, 2 * node + 1)
}

// Returns the number of children of a node that are maximal free blocks, if this is its room.
// `whole` of its children are wholly free.
fn maximal_children(dim: u32, room: u8, whole: u32) -> u32 {
    if is_part(dim, room) { whole } else { 0 }
}

// Changes the count of a dimension.
fn change(counts: &mut [u32; COUNT_PLACES], dim: u32, less: u32, more: u32) {
    let place = &mut counts[dim as usize];
    *place = place.wrapping_sub(less).wrapping_add(more);
}

/// Returns whether a room says that a node is neither taken nor wholly free.
pub(crate) fn is_part(dim: u32, room: u8) -> bool {
    room != 0 && room != dim as u8 + 2
}

/// Writes the room of a node of dimension `dim`, and keeps the counts.
pub(crate) fn write_room(
    counts: &mut [u32; COUNT_PLACES],
    rooms: &mut [u8],
    n: u32,
    dim: u32,
    node: usize,
    room: u8,
) {
    if dim == 0 {
        write_own(counts, rooms, n, dim, node, room);
        return;
    }
    write_inner(counts, rooms, n, dim, node, room);
}

/// Writes the room of a node of dimension `dim`, and keeps the count of this dimension. The others
/// stay right if the node has no children, or is taken or wholly free both before and after.
pub(crate) fn write_own(
    counts: &mut [u32; COUNT_PLACES],
    rooms: &mut [u8],
    n: u32,
    dim: u32,
    node: usize,
    room: u8,
) {
    let is_topped = is_topped(rooms, dim, node);
    let less = weight_of(dim, rooms[node], is_topped);
    let more = weight_of(dim, room, is_topped);
    rooms[node] = room;
    change(counts, dim, less, more);
}

/// Writes the room of a node that has children, and keeps the counts.
pub(crate) fn write_inner(
    counts: &mut [u32; COUNT_PLACES],
    rooms: &mut [u8],
    n: u32,
    dim: u32,
    node: usize,
    room: u8,
) {
    let before = rooms[node];
    let is_topped = is_topped(rooms, dim, node);
    let less = weight_of(dim, before, is_topped);
    let more = weight_of(dim, room, is_topped);
    let whole = whole_children(rooms, dim - 1, node);
    let less_below = maximal_children(dim, before, whole);
    let more_below = maximal_children(dim, room, whole);
    rooms[node] = room;
    change(counts, dim, less, more);
    change(counts, dim - 1, less_below, more_below);
}

// Counts the maximal free blocks of a dimension.
pub(crate) fn count_level(rooms: &[u8], n: u32, dim: u32) -> u32 {
    let first = 1usize << (n - dim);
    let mut count = 0;
    for node in first..2 * first {
        count += weigh(rooms, dim, node);
    }
    count
}

/// Counts the maximal free blocks of each dimension.
pub(crate) fn count_all(counts: &mut [u32; COUNT_PLACES], rooms: &[u8], n: u32) {
    clear_counts(counts);
    for dim in 0..n + 1 {
        counts[dim as usize] = count_level(rooms, n, dim);
    }
}

/// Counts the one maximal free block of a machine of dimension `n` in which nothing is held.
pub(crate) fn count_whole(counts: &mut [u32; COUNT_PLACES], n: u32) {
    clear_counts(counts);
    counts[n as usize] = 1;
}

// Sets all counts to 0.
fn clear_counts(counts: &mut [u32; COUNT_PLACES]) {
    *counts = [0; COUNT_PLACES];
}
