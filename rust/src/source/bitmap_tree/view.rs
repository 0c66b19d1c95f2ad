// Made from crates/bitmap_tree/src/view.rt by checks/lib/erase.py. Change that file.

use crate::source::kit::collections::LinkedList;

/// A run of bits, from `base` on. The words are numbered level after level from the top, and each
/// has 64 bits. No value of it is kept.
#[derive(Clone, Copy)]
pub struct Run {
    pub base: u64,
    pub len: u64,
}

/// What one step found in a word, and what it left there. No value of it is made.
#[must_use = "the proved source spends each value of this type by a call"]
pub struct Note {
    pub word: u64,
    pub found: u64,
    pub left: u64,
}

/// What a seat at the table knows. No value of it is made.
#[must_use = "the proved source spends each value of this type by a call"]
pub struct View {
    /// The runs that it has claimed.
    pub runs: LinkedList<Run>,
    /// What its steps found and left, the newest first.
    pub trail: LinkedList<Note>,
    /// How many permits are with it.
    pub permits: u64,
}

/// The dimension of a machine, and how many permits it has; where there are none, any caller may
/// take.
#[derive(Clone, Copy, Debug, PartialEq, Eq)]
pub struct Size {
    pub dim: u32,
    pub permits: u32,
}
