// Made from crates/fit_tree/src/apart.rt by checks/lib/erase.py. Change that file.
//! The first open node apart from one that is to be avoided.

use crate::source::fit_tree::walks::go_down;
use crate::source::cube_shape::MAX_BITMAP_DIM;

// A node in which the search goes down.
#[derive(Clone, Copy)]
pub(crate) struct Start {
    node: usize,
    dim: u32,
}

/// Returns the first open node of dimension `k` that is neither above nor below another node, which
/// has dimension `dim`.
pub(crate) fn find_apart(rooms: &[u8], n: u32, k: u32, dim: u32, avoid: usize) -> Option<usize> {
    let mut found = None;
    let mut node = avoid;
    for level in dim..n {
        found = widen(rooms, n, k, level, node, found);
        node /= 2;
    }
    let Some(start) = found else {
        return None;
    };
    Some(go_down(rooms, n, k, start.dim, start.node))
}

// Goes from what was found in a node on the way up to what is found in its parent. The node has
// dimension `dim`.
fn widen(rooms: &[u8], n: u32, k: u32, dim: u32, node: usize, found: Option<Start>) -> Option<Start> {
    if rooms[node / 2] == 0 {
        return None;
    }
    if node % 2 == 0 {
        if found.is_some() {
            return found;
        }
        return enter(rooms, k, dim, node + 1);
    }
    let Some(start) = enter(rooms, k, dim, node - 1) else {
        return found;
    };
    Some(start)
}

// Returns a node of dimension `dim` if it has room for dimension `k`.
fn enter(rooms: &[u8], k: u32, dim: u32, node: usize) -> Option<Start> {
    if k <= dim && k as u8 + 2 <= rooms[node] {
        return Some(Start { node, dim });
    }
    None
}

/// Returns the most room of nodes that are neither above nor below another one, which has dimension
/// `dim`, and are not below a taken node.
pub(crate) fn most_apart(rooms: &[u8], n: u32, dim: u32, avoid: usize) -> u8 {
    let mut most = 0;
    let mut node = avoid;
    for level in dim..n {
        most = widen_most(rooms, n, level, node, most);
        node /= 2;
    }
    most
}

// Goes from the most room in a node on the way up to that in its parent. The node has dimension
// `dim`.
fn widen_most(rooms: &[u8], n: u32, dim: u32, node: usize, most: u8) -> u8 {
    if rooms[node / 2] == 0 {
        return 0;
    }
    most.max(rooms[node ^ 1])
}
