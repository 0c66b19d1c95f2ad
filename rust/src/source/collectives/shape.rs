// Made from crates/collectives/src/shape.rt by checks/lib/erase.py. Change that file.
//! The shapes of a collective, and the rounds and messages of each.

use crate::source::collectives::message::Message;

/// The limit of the dimension of a collective, which is below it.
pub const DIM_LIMIT: u32 = 32;

/// Which messages a collective sends.
#[derive(Clone, Copy, Debug, PartialEq, Eq, Hash)]
pub enum Shape {
    /// From one rank to all.
    Broadcast,
    /// From all ranks to one.
    Reduce,
    /// From all ranks to all.
    AllReduce,
    /// From all ranks to all, and each keeps a prefix. The prefix of a scan ends with the rank's
    /// own item, that of an exclusive scan before it.
    Scan,
}

/// The number of rounds and messages of a collective.
#[derive(Clone, Copy, Debug, PartialEq, Eq, Hash)]
pub struct Tally {
    /// The number of rounds, one after the other.
    pub rounds: u32,
    /// The number of messages over all rounds.
    pub messages: u64,
}

impl Shape {
    /// Returns the rounds and messages of a collective of this shape on `2^k` places. There are `k`
    /// rounds.
    ///
    /// # Clauses of the proved source
    ///
    /// - requires: `k < DIM_LIMIT`
    /// - ensures tally: `result ≡ tally_of self k`
    /// - ensures counted: `(root : ℕ) (m : Message) → root < 2 ^ k → IsMessage self k root m → message_number self k root m < result.messages`
    pub fn tally(self, k: u32) -> Tally {
        Tally {
            rounds: k,
            messages: self.message_count(k),
        }
    }

    // Returns the number of messages of all rounds.
    fn message_count(self, k: u32) -> u64 {
        match self {
            Shape::Broadcast | Shape::Reduce => places(k) - 1,
            Shape::AllReduce | Shape::Scan => u64::from(k) * places(k),
        }
    }
}

// Returns how many places a subcube of dimension `k` has.
pub(crate) fn places(k: u32) -> u64 {
    1 << k
}
