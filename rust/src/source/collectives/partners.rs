// Made from crates/collectives/src/partners.rt by checks/lib/erase.py. Change that file.
//! The step of a rank in a round.

use crate::source::collectives::message::Message;
use crate::source::collectives::shape::{DIM_LIMIT, Shape};
use crate::source::cube_shape::neighbour;

/// The partners of one rank in a round.
#[derive(Clone, Copy, Debug, PartialEq, Eq)]
pub struct Partners {
    /// The rank that it sends to, if it sends.
    pub to: Option<u64>,
    /// The rank that it receives from, if it receives.
    pub from: Option<u64>,
}

/// Returns what a rank does in a round of a collective on `2^k` places.
///
/// It sends to a rank, or receives from it, exactly if the list of the collective's messages has
/// this message. So each partner is the rank's neighbour across the bit of the round. An all-reduce
/// and both scans ignore the root.
///
/// # Clauses of the proved source
///
/// - requires dim: `k < DIM_LIMIT`
/// - requires root: `root < 2 ^ k`
/// - requires rank: `rank < 2 ^ k`
/// - requires round: `round < k`
/// - ensures sends: `(to : ℕ) → (result.to ≡ Some to) ↔ IsListed shape k root (message round rank to)`
/// - ensures receives: `(from : ℕ) → (result.from ≡ Some from) ↔ IsListed shape k root (message round from rank)`
/// - ensures to_edge: `IfSome result.to (λ to. IsAlongAnEdge k (message round rank to))`
/// - ensures from_edge: `IfSome result.from (λ from. IsAlongAnEdge k (message round from rank))`
pub fn step(shape: Shape, k: u32, root: u64, rank: u64, round: u32) -> Partners {
    let partner = neighbour(rank, round);
    let sent = Message {
        round,
        from: rank,
        to: partner,
    };
    let received = Message {
        round,
        from: partner,
        to: rank,
    };
    Partners {
        to: partner_if(is_sent(shape, root, sent), partner),
        from: partner_if(is_sent(shape, root, received), partner),
    }
}

// Returns the partner if there is a message, else none.
fn partner_if(is_sent: bool, partner: u64) -> Option<u64> {
    if is_sent { Some(partner) } else { None }
}

// Returns whether a message between two neighbours is one of the collective.
fn is_sent(shape: Shape, root: u64, sent: Message) -> bool {
    let half = distance(sent.round);
    match shape {
        Shape::Broadcast => sent.from ^ root < half,
        Shape::Reduce => sent.to % (2 * half) == root % (2 * half),
        Shape::AllReduce | Shape::Scan => true,
    }
}

// Returns how far apart two ranks are that differ in the bit of a round only.
fn distance(round: u32) -> u64 {
    1 << round
}

/// States that the list of a collective has each message once: no number has two messages, and no
/// message two numbers. This is a law, and does nothing.
///
/// # Clauses of the proved source
///
/// - ensures one_message: `(shape : AnyShape) (k root i : ℕ) (a b : AnyMessage) → IsNumber shape k root i a → IsNumber shape k root i b → a ≡ b`
/// - ensures one_number: `(shape : AnyShape) (k root i j : ℕ) (a : AnyMessage) → IsNumber shape k root i a → IsNumber shape k root j a → i ≡ j`
pub fn messages_are_listed_once() {}
