// Made from crates/fit_tree/src/repairs.rt by checks/lib/erase.py. Change that file.
//! An image made of any bytes.

use crate::source::fit_tree::counts::count_all;
use crate::source::fit_tree::head::{Head, IMAGE_MARK};
use crate::source::fit_tree::rooms::join;
use crate::source::cube_shape::MAX_BITMAP_DIM;

// Returns the room of a node of dimension `dim` for the second pass. It says whether the node is
// taken with none taken above it, or as if free below a taken one. `above` is the new room of its
// parent.
fn sort_room(dim: u32, above: u8, room: u8) -> u8 {
    if above == 0 || above == dim as u8 + 3 {
        return dim as u8 + 2;
    }
    if room == 0 {
        return 0;
    }
    1
}

// Returns the dimension of a node.
fn dim_of(n: u32, node: usize) -> u32 {
    n - node.ilog2()
}

// Sorts all nodes, those above first.
fn sort_all(rooms: &mut [u8], n: u32) {
    rooms[0] = 1;
    for node in 1..rooms.len() {
        rooms[node] = sort_room(dim_of(n, node), rooms[node / 2], rooms[node]);
    }
}

// Returns the room of a node of dimension `dim` from those of its children.
fn joined_room(rooms: &[u8], dim: u32, node: usize) -> u8 {
    if dim == 0 {
        return 2;
    }
    join(dim - 1, rooms[2 * node], rooms[2 * node + 1])
}

// Fills the rooms that are 1, those below first.
fn fill_all(rooms: &mut [u8], n: u32) {
    let mut node = rooms.len() - 1;
    while node > 0 {
        if rooms[node] == 1 {
            rooms[node] = joined_room(rooms, dim_of(n, node), node);
        }
        node -= 1;
    }
}

/// Makes an image of a machine of dimension `n`, whatever the bytes were. A block is held then
/// exactly if its room was 0, and that of no block which contains it. An image keeps what it holds.
///
/// # Clauses of the proved source
///
/// - requires machine: `n ≤ MAX_BITMAP_DIM`
/// - requires rooms: `length rooms.old ≡ 2 ^ (n + 1)`
/// - ensures image: `IsImage n head.new rooms.new`
/// - ensures len: `length rooms.new ≡ length rooms.old`
/// - ensures held: `(r : HeldRegion) → HoldsBlock (fit_in n rooms.new) r ↔ IsTopmost n rooms.old r`
/// - ensures kept: `IsImage n head.old rooms.old → (r : HeldRegion) → HoldsBlock (fit_in n rooms.new) r ↔ HoldsBlock (fit_in n rooms.old) r`
pub fn repair(head: &mut Head, rooms: &mut [u8], n: u32) {
    sort_all(rooms, n);
    fill_all(rooms, n);
    rooms[0] = 0;
    count_all(&mut head.maximal, rooms, n);
    head.dim = n;
    head.unused = 0;
    head.mark = IMAGE_MARK;
}
