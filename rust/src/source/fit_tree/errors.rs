// Made from crates/fit_tree/src/errors.rt by checks/lib/erase.py. Change that file.
//! The reasons why a call is refused.

/// No aligned block of this dimension is free: each overlaps a held block.
#[derive(Clone, Copy, Debug, PartialEq, Eq)]
pub struct NoFitError;

/// The block overlaps a held block.
#[derive(Clone, Copy, Debug, PartialEq, Eq)]
pub struct NotFreeError;

/// The block is not held as one block.
#[derive(Clone, Copy, Debug, PartialEq, Eq)]
pub struct NotHeldError;

/// The reason why a block cannot be split.
#[derive(Clone, Copy, Debug, PartialEq, Eq)]
pub enum SplitError {
    /// The block is not held as one block.
    NotHeld,
    /// A block of one processor has no halves.
    OneProcessor,
}

/// The reason why the halves of a block cannot be joined.
#[derive(Clone, Copy, Debug, PartialEq, Eq)]
pub enum JoinError {
    /// A half of the block is not held as one block.
    NotHeld,
    /// A block of one processor has no halves.
    OneProcessor,
}
