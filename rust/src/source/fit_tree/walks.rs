// Made from crates/fit_tree/src/walks.rt by checks/lib/erase.py. Change that file.
//! The way down to a free block, and the way up from a node whose room has changed.

use crate::source::fit_tree::counts::{is_part, write_inner};
use crate::source::fit_tree::head::COUNT_PLACES;
use crate::source::fit_tree::rooms::{join, join_part};
use crate::source::cube_shape::MAX_BITMAP_DIM;

/// Returns the first open node of dimension `k`.
pub(crate) fn find(rooms: &[u8], n: u32, k: u32) -> Option<usize> {
    if rooms[1] < k as u8 + 2 {
        return None;
    }
    Some(go_down(rooms, n, k, n, 1))
}

/// Returns the first open node of dimension `k` in a node of dimension `top` that has room for it.
pub(crate) fn go_down(rooms: &[u8], n: u32, k: u32, top: u32, start: usize) -> usize {
    let least = k as u8 + 2;
    let mut node = start;
    for _ in k..top {
        node = 2 * node;
        if rooms[node] < least {
            node += 1;
        }
    }
    node
}

// Returns whether no node above this one was taken as one block.
fn is_reached(rooms: &[u8], n: u32, start: usize) -> bool {
    let mut node = start / 2;
    while node > 0 {
        if rooms[node] == 0 {
            return false;
        }
        node /= 2;
    }
    true
}

/// Returns whether a node of dimension `k` is open.
pub(crate) fn is_open(rooms: &[u8], n: u32, k: u32, node: usize) -> bool {
    if rooms[node] != k as u8 + 2 {
        return false;
    }
    is_reached(rooms, n, node)
}

/// Makes the rooms above a node right again. Its own room has changed.
pub(crate) fn mend(counts: &mut [u32; COUNT_PLACES], rooms: &mut [u8], n: u32, k: u32, start: usize) {
    let mut node = start;
    let mut own = rooms[start];
    for dim in k..n {
        let room = join(dim, own, rooms[node ^ 1]);
        node /= 2;
        let before = rooms[node];
        if before == room {
            return;
        }
        if is_part(dim + 1, before) && is_part(dim + 1, room) {
            rooms[node] = room;
            mend_parts(rooms, n, dim + 1, node);
            return;
        }
        write_inner(counts, rooms, n, dim + 1, node, room);
        own = room;
    }
}

// Makes the rooms above a node right again, where no count changes. The node's own room has
// changed, and neither it nor the one above it is wholly free or taken.
fn mend_parts(rooms: &mut [u8], n: u32, k: u32, start: usize) {
    let mut node = start;
    let mut own = rooms[start];
    for _ in k..n {
        let room = join_part(own, rooms[node ^ 1]);
        node /= 2;
        if rooms[node] == room {
            return;
        }
        rooms[node] = room;
        own = room;
    }
}
