// Made from crates/bitmap_tree/src/layout.rt by checks/lib/erase.py. Change that file.
//! Where the words of the levels lie, and the unit around a processor.

use crate::source::bitmap_tree::mask::WORD_DIM;
use crate::source::cube_shape::{MAX_BITMAP_DIM, Region};

// The first word of the level that has this many levels above it.
pub(crate) fn first_word(above: u32) -> u32 {
    match above {
        0 => 0,
        1 => 1,
        2 => 65,
        _ => 4161,
    }
}

// The number of words of a machine of dimension `n`.
pub(crate) fn words_of(n: u32) -> u32 {
    first_word(n / 6) + (1 << n.saturating_sub(WORD_DIM))
}

// The number of words of `2^units` units.
pub(crate) fn words_in(units: u32) -> u32 {
    1 << units.saturating_sub(WORD_DIM)
}

// The aligned block of a dimension in which a processor lies.
pub(crate) fn block_at(processor: u64, dim: u32) -> Region {
    Region {
        base: (processor >> dim) << dim,
        dim,
    }
}
