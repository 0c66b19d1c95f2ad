// Made from crates/sched_jobs/src/trees.rt by checks/lib/erase.py. Change that file.
//! Trees of items.

use crate::source::sched_jobs::nodes::{
    Fork, QueueNode, common_bits, fork_at, key_at, least_in, make_fork, put_less, put_more, size_in,
};

/// Returns the first item of a tree whose estimate is within a limit, if there is one.
pub(crate) fn oldest_within_in(nodes: &[QueueNode], link: u32, limit: u64) -> u32 {
    if link % 2 == 0 {
        return link / 2;
    }
    let fork = fork_at(nodes, link / 2);
    if least_in(nodes, fork.left) <= limit {
        return oldest_within_in(nodes, fork.left, limit);
    }
    oldest_within_in(nodes, fork.right, limit)
}

/// Returns the number of items of a tree with a lesser key.
pub(crate) fn count_in(nodes: &[QueueNode], link: u32, key: u64) -> u32 {
    let slot = link / 2;
    let is_before = key_at(nodes, slot) < key;
    if link % 2 == 0 {
        return is_before as u32;
    }
    let fork = fork_at(nodes, slot);
    if is_before {
        return size_in(nodes, fork.left) + count_in(nodes, fork.right, key);
    }
    count_in(nodes, fork.left, key)
}

// Returns whether a new item is to be joined with this tree, and not with a part of it. The tree's
// keys have some leading bits in common that the new one lacks.
fn is_joined_here(nodes: &[QueueNode], link: u32, slot: u32) -> bool {
    if link % 2 == 0 {
        return true;
    }
    common_bits(nodes, link / 2, slot) < fork_at(nodes, link / 2).common
}

/// Appends an item to a tree. Returns the link to the new tree.
pub(crate) fn push_in(nodes: &mut [QueueNode], link: u32, slot: u32) -> u32 {
    if is_joined_here(nodes, link, slot) {
        let common = common_bits(nodes, link / 2, slot);
        return make_fork(nodes, slot, link, 2 * slot, common);
    }
    let fork = fork_at(nodes, link / 2);
    let right = push_in(nodes, fork.right, slot);
    put_more(nodes, link / 2, right, slot)
}

/// Returns whether a link leads to the leaf of a slot.
pub(crate) fn is_leaf_of(link: u32, slot: u32) -> bool {
    link as u64 == 2 * slot as u64
}

/// Returns the first item after one was removed: the first one so far, or the next one if it was
/// removed.
pub(crate) fn first_after(first: u32, next: u32, slot: u32) -> u32 {
    if first != slot {
        return first;
    }
    next
}

/// Removes an item of a tree of at least two. Returns the link to the new tree. If the first item
/// was removed, it writes the new first one to `next`. A fork is read again after the removal below
/// it, so that no copy of it is kept meanwhile.
pub(crate) fn remove_in(nodes: &mut [QueueNode], link: u32, slot: u32, next: &mut u32) -> u32 {
    let here = link / 2;
    let fork = fork_at(nodes, here);
    if key_at(nodes, slot) < key_at(nodes, here) {
        if is_leaf_of(fork.left, slot) {
            *next = here;
            return fork.right;
        }
        let left = remove_in(nodes, fork.left, slot, next);
        let again = fork_at(nodes, here);
        return put_less(nodes, here, Fork { left, ..again }, slot);
    }
    if is_leaf_of(fork.right, slot) {
        return fork.left;
    }
    let right = remove_in(nodes, fork.right, slot, next);
    let place = first_after(here, *next, slot);
    let again = fork_at(nodes, here);
    put_less(nodes, place, Fork { right, ..again }, slot)
}
