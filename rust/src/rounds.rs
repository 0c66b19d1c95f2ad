//! The messages of collective operations (as in MPI), round by round. You send the data.
//!
//! A collective on `2^k` ranks takes `k` rounds. In round `i` messages go between ranks that differ
//! in bit `i` only. The steps of all ranks over all rounds are exactly the list of messages, each
//! once as a send and once as a receive. The header `cubejobs_rounds.h` says how a rank joins what
//! it receives.
//!
//! ```
//! use cubejobs::rounds::{Collective, Message, Shape, Step};
//!
//! let reduce = Collective::new(Shape::Reduce, 2, 1)?;
//! let last = Message { round: 1, from: 3, to: 1 };
//! assert_eq!(reduce.messages().last(), Some(last));
//! let of_rank_3: Vec<Step> = reduce.steps(3).collect();
//! assert_eq!(of_rank_3[0], Step { round: 0, to: None, from: Some(2) });
//! assert_eq!(of_rank_3[1], Step { round: 1, to: Some(1), from: None });
//! # Ok::<(), Box<dyn std::error::Error>>(())
//! ```

use crate::rounds_ffi;
use core::error::Error;
use core::fmt;
use core::ops::Range;

/// The largest dimension of a collective, which has at most `2^MAX_DIM` ranks.
pub const MAX_DIM: u32 = rounds_ffi::MAX_DIM;

/// Which messages a collective has.
#[derive(Clone, Copy, Debug, PartialEq, Eq, Hash)]
pub enum Shape {
    /// From one rank, the root, to all.
    Broadcast = 0,
    /// From all ranks to one, the root.
    Reduce = 1,
    /// From all ranks to all.
    AllReduce = 2,
    /// From all ranks to all, and each keeps a prefix: a scan or an exclusive scan.
    Scan = 3,
}

/// A collective on `2^dim` ranks.
#[derive(Clone, Copy, Debug, PartialEq, Eq, Hash)]
pub struct Collective {
    shape: Shape,
    dim: u32,
    root: u64,
}

/// The reason why numbers name no collective.
#[derive(Clone, Copy, Debug, PartialEq, Eq)]
#[non_exhaustive]
pub enum CollectiveError {
    /// The dimension is above [`MAX_DIM`].
    BadDimension,
    /// The root is not below `2^dim`.
    BadRoot,
}

/// A message: rank `from` sends to rank `to` in this round.
#[derive(Clone, Copy, Debug, PartialEq, Eq, Hash)]
pub struct Message {
    /// The round, from 0 on.
    pub round: u32,
    /// The rank that sends.
    pub from: u64,
    /// The rank that receives.
    pub to: u64,
}

/// What one rank does in a round. If it sends and receives, both partners are the same rank.
#[derive(Clone, Copy, Debug, PartialEq, Eq, Hash)]
pub struct Step {
    /// The round, from 0 on.
    pub round: u32,
    /// The rank that it sends to, if it sends.
    pub to: Option<u64>,
    /// The rank that it receives from, if it receives.
    pub from: Option<u64>,
}

/// The messages of a collective, in their order. Made by [`Collective::messages`].
#[derive(Clone, Debug)]
pub struct Messages {
    of: Collective,
    numbers: Range<u64>,
}

/// The steps of one rank, in the order of the rounds. Made by [`Collective::steps`].
#[derive(Clone, Debug)]
pub struct Steps {
    of: Collective,
    rank: u64,
    rounds: Range<u32>,
}

impl Collective {
    /// Makes a collective of a shape on `2^dim` ranks. An all-reduce and a scan ignore the root,
    /// which must be a rank all the same.
    ///
    /// # Errors
    ///
    /// The first of these that applies: `BadDimension`, `BadRoot`.
    pub fn new(shape: Shape, dim: u32, root: u64) -> Result<Self, CollectiveError> {
        match rounds_ffi::message(shape as u32, dim, root, 0).code {
            rounds_ffi::BAD_DIMENSION => Err(CollectiveError::BadDimension),
            rounds_ffi::BAD_ROOT => Err(CollectiveError::BadRoot),
            _ => Ok(Collective { shape, dim, root }),
        }
    }

    /// Returns the number of rounds, which is the dimension.
    #[must_use]
    pub fn rounds(&self) -> u32 {
        rounds_ffi::count(self.shape as u32, self.dim).rounds
    }

    /// Returns the number of messages of all rounds.
    #[must_use]
    pub fn message_count(&self) -> u64 {
        rounds_ffi::count(self.shape as u32, self.dim).messages
    }

    /// Returns message number `i`, from 0 on, if there are more than `i`.
    #[must_use]
    pub fn message(&self, i: u64) -> Option<Message> {
        let answer = rounds_ffi::message(self.shape as u32, self.dim, self.root, i);
        let message = Message { round: answer.round, from: answer.from, to: answer.to };
        (answer.code == rounds_ffi::DONE).then_some(message)
    }

    /// Returns what a rank does in a round, if there are such a rank and such a round.
    #[must_use]
    pub fn step(&self, rank: u64, round: u32) -> Option<Step> {
        let answer = rounds_ffi::step(self.shape as u32, self.dim, self.root, rank, round);
        let partner = |number| (number != rounds_ffi::NO_RANK).then_some(number);
        let step = Step { round, to: partner(answer.to), from: partner(answer.from) };
        (answer.code == rounds_ffi::DONE).then_some(step)
    }

    /// Returns all messages, round after round.
    #[must_use]
    pub fn messages(&self) -> Messages {
        Messages { of: *self, numbers: 0..self.message_count() }
    }

    /// Returns the steps of a rank, one for each round. A number that is no rank has none.
    #[must_use]
    pub fn steps(&self, rank: u64) -> Steps {
        let rounds = if rank < 1 << self.dim { self.rounds() } else { 0 };
        Steps { of: *self, rank, rounds: 0..rounds }
    }
}

impl Iterator for Messages {
    type Item = Message;

    fn next(&mut self) -> Option<Message> {
        self.numbers.next().and_then(|i| self.of.message(i))
    }

    fn size_hint(&self) -> (usize, Option<usize>) {
        self.numbers.size_hint()
    }

    fn nth(&mut self, n: usize) -> Option<Message> {
        self.numbers.nth(n).and_then(|i| self.of.message(i))
    }
}

impl DoubleEndedIterator for Messages {
    fn next_back(&mut self) -> Option<Message> {
        self.numbers.next_back().and_then(|i| self.of.message(i))
    }
}

impl Iterator for Steps {
    type Item = Step;

    fn next(&mut self) -> Option<Step> {
        self.rounds.next().and_then(|round| self.of.step(self.rank, round))
    }

    fn size_hint(&self) -> (usize, Option<usize>) {
        self.rounds.size_hint()
    }
}

impl DoubleEndedIterator for Steps {
    fn next_back(&mut self) -> Option<Step> {
        self.rounds.next_back().and_then(|round| self.of.step(self.rank, round))
    }
}

impl ExactSizeIterator for Steps {}

impl fmt::Display for CollectiveError {
    fn fmt(&self, f: &mut fmt::Formatter<'_>) -> fmt::Result {
        match self {
            CollectiveError::BadDimension => write!(f, "the dimension is past {MAX_DIM}"),
            CollectiveError::BadRoot => f.write_str("the root is no rank"),
        }
    }
}

impl Error for CollectiveError {}
