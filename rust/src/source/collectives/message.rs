// Made from crates/collectives/src/message.rt by checks/lib/erase.py. Change that file.
//! One message of a collective.

/// A message of a collective, from one rank to another.
#[derive(Clone, Copy, Debug, PartialEq, Eq, Hash)]
pub struct Message {
    /// The round in which it is sent, from 0 on.
    pub round: u32,
    /// The rank that sends it.
    pub from: u64,
    /// The rank that receives it.
    pub to: u64,
}
