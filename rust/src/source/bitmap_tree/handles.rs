// Made from crates/bitmap_tree/src/handles.rt by checks/lib/erase.py. Change that file.
//! A machine, and what its callers hold.

use crate::source::kit::prelude::{Vec};

use crate::source::bitmap_tree::marks::Marks;
use crate::source::bitmap_tree::spares::Spares;
use crate::source::bitmap_tree::steps::{BlankSeat, BlockSeat, Words};
use crate::source::bitmap_tree::view::Size;
use crate::source::cube_shape::Region;

/// The bitmaps of a machine, which threads share by `&`.
pub struct BitmapTree {
    pub(crate) bits: Words,
    pub(crate) size: Size,
    // Where a search need not look, for each level below the top, and which words stay open.
    pub(crate) marks: Vec<Marks>,
    pub(crate) spares: Spares,
    // Where the words go at the end.
    pub(crate) room: Vec<u64>,
}

/// A block that is held. It cannot be dropped.
#[must_use = "the proved source spends each value of this type by a call"]
pub struct HeldBlock {
    pub(crate) region: Region,
    pub(crate) dim: u32,
    pub(crate) seat: BlockSeat,
}

/// A take that was refused, and what its steps found.
pub struct Refused {
    /// Whether it gave up a word, in which it lost several exchanges to other calls.
    pub disturbed: bool,
    pub(crate) seat: BlankSeat,
}

/// A block that was released, and what the steps of the release changed.
pub struct Released {
    pub(crate) seat: BlankSeat,
}

/// The right to hold one block at a time, in a machine that has permits. It cannot be dropped.
#[must_use = "the proved source spends each value of this type by a call"]
pub struct Permit {
    pub(crate) seat: BlockSeat,
}
