// Made from crates/sched_jobs/src/nodes.rt by checks/lib/erase.py. Change that file.
//! The nodes of a slice, and links to leaves and forks.
//!
//! The link to the leaf of a slot is twice the slot. The link to the fork in a slot is one more.

/// The most slots that a slice of nodes may have.
pub const MAX_SLOTS: usize = 1 << 24;

/// The link of an empty queue.
pub(crate) const NO_LINK: u32 = u32::MAX;

/// A fork of a tree.
#[derive(Clone, Copy)]
pub(crate) struct Fork {
    /// The least estimate below it.
    pub least: u64,
    /// The link to the side of the lesser keys.
    pub left: u32,
    /// The link to the side of the greater keys.
    pub right: u32,
    /// The number of items below it.
    pub size: u32,
    /// How many leading bits the keys below it have in common.
    pub common: u32,
}

/// A slot of a slice: an item, and room for a fork.
#[derive(Clone, Copy)]
pub struct QueueNode {
    /// The item's key.
    pub key: u64,
    /// The item's estimate. A larger one means longer, and the largest is 'not known'.
    pub estimate: u64,
    pub(crate) fork: Fork,
}

impl QueueNode {
    /// A slot before its first use.
    pub const UNUSED: QueueNode = QueueNode {
        key: 0,
        estimate: 0,
        fork: Fork {
            least: 0,
            left: 0,
            right: 0,
            size: 0,
            common: 0,
        },
    };
}

/// Returns the key of a slot's item.
pub(crate) fn key_at(nodes: &[QueueNode], slot: u32) -> u64 {
    nodes[slot as usize].key
}

/// Returns the estimate of a slot's item.
pub(crate) fn estimate_at(nodes: &[QueueNode], slot: u32) -> u64 {
    nodes[slot as usize].estimate
}

/// Returns the fork that lies in a slot.
pub(crate) fn fork_at(nodes: &[QueueNode], slot: u32) -> Fork {
    nodes[slot as usize].fork
}

/// Returns the number of items below a link.
pub(crate) fn size_in(nodes: &[QueueNode], link: u32) -> u32 {
    if link % 2 == 0 {
        return 1;
    }
    fork_at(nodes, link / 2).size
}

/// Returns the least estimate of an item below a link.
pub(crate) fn least_in(nodes: &[QueueNode], link: u32) -> u64 {
    if link % 2 == 0 {
        return estimate_at(nodes, link / 2);
    }
    fork_at(nodes, link / 2).least
}

/// Returns how many leading bits the keys of two slots have in common.
pub(crate) fn common_bits(nodes: &[QueueNode], one: u32, other: u32) -> u32 {
    (key_at(nodes, one) ^ key_at(nodes, other)).leading_zeros()
}

/// Writes an item.
pub(crate) fn put_item(nodes: &mut [QueueNode], slot: u32, key: u64, estimate: u64) {
    let node = &mut nodes[slot as usize];
    node.key = key;
    node.estimate = estimate;
}

// Writes a fork.
fn put_fork(nodes: &mut [QueueNode], slot: u32, fork: Fork) {
    nodes[slot as usize].fork = fork;
}

/// Joins two trees by a fork, and returns the link to it. The keys below it have some leading bits
/// in common.
pub(crate) fn make_fork(
    nodes: &mut [QueueNode],
    slot: u32,
    left: u32,
    right: u32,
    common: u32,
) -> u32 {
    let size = size_in(nodes, left) + size_in(nodes, right);
    let least = least_in(nodes, left).min(least_in(nodes, right));
    put_fork(
        nodes,
        slot,
        Fork {
            least,
            left,
            right,
            size,
            common,
        },
    );
    2 * slot + 1
}

/// Writes a fork's new link to its right, where an item was appended. Returns the link to the fork.
pub(crate) fn put_more(nodes: &mut [QueueNode], place: u32, right: u32, slot: u32) -> u32 {
    let fork = fork_at(nodes, place);
    let least = fork.least.min(estimate_at(nodes, slot));
    let size = fork.size + 1;
    put_fork(
        nodes,
        place,
        Fork {
            least,
            right,
            size,
            ..fork
        },
    );
    2 * place + 1
}

// Returns the least estimate below a fork from which an item was removed. If the least so far is
// below the item's, or is that of the fork's slot, an item that is left has it.
fn least_without(nodes: &[QueueNode], place: u32, fork: Fork, slot: u32) -> u64 {
    if fork.least < estimate_at(nodes, slot) || fork.least == estimate_at(nodes, place) {
        return fork.least;
    }
    least_in(nodes, fork.left).min(least_in(nodes, fork.right))
}

/// Writes a fork with the links to its two trees, from one of which an item was removed. Returns
/// the link to it. The item in the fork's slot is one of those that are left.
pub(crate) fn put_less(nodes: &mut [QueueNode], place: u32, fork: Fork, slot: u32) -> u32 {
    let least = least_without(nodes, place, fork, slot);
    let size = fork.size - 1;
    put_fork(
        nodes,
        place,
        Fork {
            least,
            size,
            ..fork
        },
    );
    2 * place + 1
}
