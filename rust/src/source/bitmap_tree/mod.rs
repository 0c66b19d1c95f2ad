// Made from crates/bitmap_tree/src/lib.rt by checks/lib/erase.py. Change that file.
//! A lock-free allocator of aligned power-of-two blocks over a tree of bitmaps, for any number of
//! threads.
//!
//! Each level of the tree has one bit for each unit of 64 times the size of the level below. A
//! block is a run of at most 32 bits in one word of one level, so one exchange claims it. A bit
//! that is set is held, or the word under it is open. The bits of an open word say which parts of
//! its unit are held.
//!
//! No call waits, and each call makes a bounded number of steps.

pub(crate) mod block_takes;
pub(crate) mod comparison;
pub(crate) mod ends;
pub(crate) mod halves;
pub(crate) mod handles;
pub(crate) mod layout;
pub(crate) mod marks;
pub(crate) mod mask;
pub(crate) mod no_block;
pub(crate) mod opening;
pub(crate) mod parts;
pub(crate) mod permits;
pub(crate) mod releases;
pub(crate) mod rule;
pub(crate) mod scan;
pub(crate) mod search;
pub(crate) mod spares;
pub(crate) mod steps;
pub(crate) mod sweep;
pub(crate) mod takes;
pub(crate) mod view;

pub use crate::source::cube_shape::{MAX_BITMAP_DIM, Region};
pub use handles::{BitmapTree, HeldBlock, Permit, Refused, Released};
pub use parts::BlockView;
pub use steps::{BlankSeat, BlockSeat, HiddenSeat};
pub use view::Run;
