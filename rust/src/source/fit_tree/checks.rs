// Made from crates/fit_tree/src/checks.rt by checks/lib/erase.py. Change that file.
//! The test whether bytes are an image.

use crate::source::fit_tree::counts::count_all;
use crate::source::fit_tree::head::{COUNT_PLACES, Head, IMAGE_MARK};
use crate::source::fit_tree::rooms::join;
use crate::source::cube_shape::MAX_BITMAP_DIM;

// Returns whether the room of a node is right.
fn is_right(rooms: &[u8], dim: u32, node: usize) -> bool {
    if dim == 0 {
        return is_right_leaf(rooms[node]);
    }
    is_right_over(dim - 1, rooms[2 * node], rooms[2 * node + 1], rooms[node])
}

// Returns whether the room of a node that has no children is right.
fn is_right_leaf(room: u8) -> bool {
    room == 0 || room == 2
}

// Returns whether the room of a node is right. Its children have the dimension `dim` and these
// rooms.
fn is_right_over(dim: u32, left: u8, right: u8, room: u8) -> bool {
    let whole = dim as u8 + 2;
    if room == 0 {
        return left == whole && right == whole;
    }
    room == join(dim, left, right)
}

// Returns whether the rooms of the nodes of dimension `dim` are right.
fn is_right_level(rooms: &[u8], n: u32, dim: u32) -> bool {
    let first = 1usize << (n - dim);
    for node in first..2 * first {
        if !is_right(rooms, dim, node) {
            return false;
        }
    }
    true
}

// Returns whether all rooms are right.
fn are_right(rooms: &[u8], n: u32) -> bool {
    for dim in 0..n + 1 {
        if !is_right_level(rooms, n, dim) {
            return false;
        }
    }
    true
}

// Returns whether these are the numbers of maximal free blocks.
fn are_counted(counts: &[u32; COUNT_PLACES], rooms: &[u8], n: u32) -> bool {
    let mut found = [0; COUNT_PLACES];
    count_all(&mut found, rooms, n);
    are_equal(counts, &found)
}

// Returns whether two lists of counts are equal.
fn are_equal(left: &[u32; COUNT_PLACES], right: &[u32; COUNT_PLACES]) -> bool {
    for dim in 0..COUNT_PLACES {
        if left[dim] != right[dim] {
            return false;
        }
    }
    true
}

/// Returns whether the head and the rooms are an image of a machine of dimension `n`. Looks at each
/// byte.
///
/// # Clauses of the proved source
///
/// - requires machine: `n ≤ MAX_BITMAP_DIM`
/// - requires rooms: `length rooms.now ≡ 2 ^ (n + 1)`
/// - ensures: `IsTrue result ↔ IsImage n head.now rooms.now`
pub fn check(head: &Head, rooms: &[u8], n: u32) -> bool {
    if head.mark != IMAGE_MARK || head.dim != n || head.unused != 0 || rooms[0] != 0 {
        return false;
    }
    if !are_right(rooms, n) {
        return false;
    }
    are_counted(&head.maximal, rooms, n)
}
