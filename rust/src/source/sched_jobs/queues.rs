// Made from crates/sched_jobs/src/queues.rt by checks/lib/erase.py. Change that file.
//! Queues.

use crate::source::sched_jobs::nodes::{MAX_SLOTS, NO_LINK, QueueNode, least_in, put_item, size_in};
use crate::source::sched_jobs::trees::{count_in, first_after, is_leaf_of, oldest_within_in, push_in, remove_in};

/// A queue of items, which are slots of a slice of nodes.
#[derive(Clone, Copy)]
pub struct Queue {
    root: u32,
    /// The item with the least key, if there is an item.
    front: u32,
}

impl Queue {
    /// Returns a queue without items.
    ///
    /// # Clauses of the proved source
    ///
    /// - ensures: `(nodes : List NodeData) → IsQueue nodes result []`
    pub fn new() -> Queue {
        Queue {
            root: NO_LINK,
            front: 0,
        }
    }
}

/// Returns whether a queue has no item.
///
/// # Clauses of the proved source
///
/// - ensures: `(nodes : List NodeData) (slots : List ℕ) → IsQueue nodes queue.now slots → IsTrue result ↔ (slots ≡ [])`
pub fn is_empty(queue: &Queue) -> bool {
    queue.root == NO_LINK
}

/// Returns the number of items.
///
/// # Clauses of the proved source
///
/// - requires: `(slots : List ℕ) × IsQueue nodes.now queue.now slots`
/// - ensures: `(slots : List ℕ) → IsQueue nodes.now queue.now slots → result ≡ length slots`
pub fn len(nodes: &[QueueNode], queue: &Queue) -> u32 {
    if queue.root == NO_LINK {
        return 0;
    }
    size_in(nodes, queue.root)
}

/// Returns the item with the least key.
///
/// # Clauses of the proved source
///
/// - requires: `(slots : List ℕ) × IsQueue nodes.now queue.now slots`
/// - ensures: `(slots : List ℕ) → IsQueue nodes.now queue.now slots → result ≡ first_slot slots`
pub fn oldest(nodes: &[QueueNode], queue: &Queue) -> Option<u32> {
    if queue.root == NO_LINK {
        return None;
    }
    Some(queue.front)
}

/// Returns the item with the least key among those with an estimate of at most `limit`.
///
/// # Clauses of the proved source
///
/// - requires: `(slots : List ℕ) × IsQueue nodes.now queue.now slots`
/// - ensures found: `(slots : List ℕ) → IsQueue nodes.now queue.now slots → IfSome result (λ slot. IsOldestWithin nodes.now slots limit slot)`
/// - ensures none: `(slots : List ℕ) → IsQueue nodes.now queue.now slots → IfNone result (HasNoneWithin nodes.now slots limit)`
pub fn oldest_within(nodes: &[QueueNode], queue: &Queue, limit: u64) -> Option<u32> {
    if queue.root == NO_LINK {
        return None;
    }
    if limit < least_in(nodes, queue.root) {
        return None;
    }
    Some(oldest_within_in(nodes, queue.root, limit))
}

/// Returns the number of items with a lesser key than `key`.
///
/// # Clauses of the proved source
///
/// - requires: `(slots : List ℕ) × IsQueue nodes.now queue.now slots`
/// - ensures: `(slots : List ℕ) → IsQueue nodes.now queue.now slots → result ≡ count_by (λ slot. nat_lt (key_of nodes.now slot) key) slots`
pub fn count_before(nodes: &[QueueNode], queue: &Queue, key: u64) -> u32 {
    if queue.root == NO_LINK {
        return 0;
    }
    count_in(nodes, queue.root, key)
}

/// Appends an item, whose key is above all keys of the queue.
///
/// # Clauses of the proved source
///
/// - requires limit: `length nodes.old ≤ MAX_SLOTS`
/// - requires slot: `slot < length nodes.old`
/// - requires queue: `(slots : List ℕ) × CanAppend nodes.old queue.old slots slot key`
/// - ensures queue: `(slots : List ℕ) → CanAppend nodes.old queue.old slots slot key → IsQueue nodes.new queue.new (slots ++ slot ∷ [])`
/// - ensures key: `key_of nodes.new slot ≡ key`
/// - ensures estimate: `estimate_of nodes.new slot ≡ estimate`
/// - ensures keys: `(u : ℕ) → u ≢ slot → key_of nodes.new u ≡ key_of nodes.old u`
/// - ensures estimates: `(u : ℕ) → u ≢ slot → estimate_of nodes.new u ≡ estimate_of nodes.old u`
/// - ensures others: `(slots : List ℕ) → CanAppend nodes.old queue.old slots slot key → (other : QueueData) (theirs : List ℕ) → IsQueue nodes.old other theirs → AreApart (slot ∷ slots) theirs → IsQueue nodes.new other theirs`
pub fn push(nodes: &mut [QueueNode], queue: &mut Queue, slot: u32, key: u64, estimate: u64) {
    put_item(nodes, slot, key, estimate);
    if queue.root == NO_LINK {
        queue.root = 2 * slot;
        queue.front = slot;
        return;
    }
    queue.root = push_in(nodes, queue.root, slot);
}

/// Removes an item.
///
/// # Clauses of the proved source
///
/// - requires: `(slots : List ℕ) × HasItem nodes.old queue.old slots slot`
/// - ensures queue: `(before after : List ℕ) → IsQueue nodes.old queue.old (before ++ slot ∷ after) → IsQueue nodes.new queue.new (before ++ after)`
/// - ensures keys: `(u : ℕ) → key_of nodes.new u ≡ key_of nodes.old u`
/// - ensures estimates: `(u : ℕ) → estimate_of nodes.new u ≡ estimate_of nodes.old u`
/// - ensures others: `(slots : List ℕ) → HasItem nodes.old queue.old slots slot → (other : QueueData) (theirs : List ℕ) → IsQueue nodes.old other theirs → AreApart slots theirs → IsQueue nodes.new other theirs`
pub fn remove(nodes: &mut [QueueNode], queue: &mut Queue, slot: u32) {
    if is_leaf_of(queue.root, slot) {
        queue.root = NO_LINK;
        return;
    }
    let mut next = slot;
    queue.root = remove_in(nodes, queue.root, slot, &mut next);
    queue.front = first_after(queue.front, next, slot);
}

/// Says that a queue stays as it is if the nodes of its items do. A slice may get longer.
///
/// # Clauses of the proved source
///
/// - ensures: `(old new : List NodeData) (queue : QueueData) (slots : List ℕ) → IsQueue old queue slots → length old ≤ length new → length new ≤ MAX_SLOTS → ((u : ℕ) → Has slots u → node_at new u ≡ node_at old u) → IsQueue new queue slots`
pub fn queues_rest_on_their_slots() {}
