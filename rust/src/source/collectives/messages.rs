// Made from crates/collectives/src/messages.rt by checks/lib/erase.py. Change that file.
//! The messages of a collective, by their numbers.

use crate::source::collectives::message::Message;
use crate::source::collectives::shape::{DIM_LIMIT, Shape, places};

/// Returns message number `i`, from 0 on, of a collective on `2^k` places.
///
/// Messages are counted round after round. Within a round, messages of a broadcast come in the
/// order of their senders as seen from the root (rank `x` is seen as `x ^ root`). Those of a
/// reduction come in the order of their receivers. Those of an all-reduce and of both scans come in
/// the order of their senders. An all-reduce and both scans ignore the root.
///
/// The two ranks differ in the bit of the round only. So on each block of dimension `k`, whose base
/// is some `m * 2^k`, the processors of the two ranks are neighbours.
///
/// # Clauses of the proved source
///
/// - requires dim: `k < DIM_LIMIT`
/// - requires root: `root < 2 ^ k`
/// - requires number: `i < message_count shape k`
/// - ensures message: `IsMessage shape k root result`
/// - ensures number: `message_number shape k root result ≡ i`
/// - ensures alone: `(m : Message) → IsMessage shape k root m → message_number shape k root m ≡ i → m ≡ result`
/// - ensures rising: `(m : Message) → IsMessage shape k root m → i ≤ message_number shape k root m → result.round ≤ m.round`
/// - ensures edge: `IsAlongAnEdge k result`
/// - ensures neighbours: `(m : ℕ) → AreNeighboursIn result.round (m * 2 ^ k + result.from) (m * 2 ^ k + result.to)`
pub fn message_at(shape: Shape, k: u32, root: u64, i: u64) -> Message {
    numbered_message(shape, k, root, i)
}

// Returns message number `i`. The other clauses of `message_at` follow from these two.
fn numbered_message(shape: Shape, k: u32, root: u64, i: u64) -> Message {
    match shape {
        Shape::Broadcast => broadcast_message(k, root, i),
        Shape::Reduce => reduce_message(k, root, i),
        Shape::AllReduce | Shape::Scan => exchange_message(k, i),
    }
}

// Returns message number `i` of a broadcast. Each round has twice as many messages as the one
// before.
fn broadcast_message(k: u32, root: u64, i: u64) -> Message {
    let round = (i + 1).ilog2();
    let half = places(round);
    let v = i + 1 - half;
    Message {
        round,
        from: v ^ root,
        to: (v + half) ^ root,
    }
}

// Returns message number `i` of a reduction. Each round has half as many messages as the one
// before.
fn reduce_message(k: u32, root: u64, i: u64) -> Message {
    let all = places(k);
    let rounds_after = (all - 1 - i).ilog2();
    let last = places(rounds_after);
    let round = k - 1 - rounds_after;
    let half = places(round);
    let before = all - 2 * last;
    let to = (i - before) * (2 * half) + root % (2 * half);
    Message {
        round,
        from: to ^ half,
        to,
    }
}

// Returns message number `i` of an all-reduce or a scan. Each round has `2^k` messages.
fn exchange_message(k: u32, i: u64) -> Message {
    let round = (i / places(k)) as u32;
    let from = i % places(k);
    Message {
        round,
        from,
        to: from ^ places(round),
    }
}
