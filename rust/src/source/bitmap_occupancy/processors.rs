// Made from crates/bitmap_occupancy/src/processors.rt by checks/lib/erase.py. Change that file.
//! Whether a processor is held, by the words in which its units lie.

use crate::source::cube_shape::MAX_BITMAP_DIM;

/// The number of levels of the largest machine.
pub(crate) const LEVELS: usize = MAX_BITMAP_DIM as usize / 6 + 1;

// Returns whether the bit of a unit is set in its word.
fn is_set(word: u64, unit: u64) -> bool {
    (word >> (unit % 64)) % 2 == 1
}

// Returns whether a processor is held, by a word of each level.
pub(crate) fn is_held(n: u32, path: &[u64; LEVELS], processor: u64) -> bool {
    for level in 0..n / 6 + 1 {
        if !is_set(path[level as usize], processor >> (6 * level)) {
            return false;
        }
    }
    true
}
