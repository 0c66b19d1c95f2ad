// Made from crates/collectives/src/lib.rt by checks/lib/erase.py. Change that file.
//! The collective operations broadcast, reduce, all-reduce, scan and exclusive scan (as in MPI) on
//! a subcube, in place on a slice.
//!
//! A subcube of dimension `k` has the ranks `0` to `2^k - 1`, and rank `x` holds the item
//! `items[x]`. A collective takes `k` rounds, one for each dimension. In round `i` messages go
//! between ranks that differ in bit `i` only. If their two items are joined, the rank whose bit `i`
//! is 0 is on the left. So the items are joined in the order of their ranks, and joining need not
//! be commutative.
//!
//! If there are fewer items than places, `pad` puts the unit at the other places. This does not
//! change the total.
//!
//! `step` says what one rank does in a round: the rank that it sends to, and the rank that it
//! receives from. The steps of all ranks over all rounds are exactly the messages of the
//! collective. Each is there once as a send and once as a receive.

pub(crate) mod message;
pub(crate) mod messages;

pub(crate) mod partners;

pub(crate) mod shape;

pub use message::Message;
pub use messages::message_at;

pub use partners::{Partners, messages_are_listed_once, step};
pub use shape::{DIM_LIMIT, Shape, Tally};
