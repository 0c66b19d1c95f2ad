// Made from crates/bitmap_occupancy/src/pass.rt by checks/lib/erase.py. Change that file.
//! Loads of the words of a machine, each at its first processor.

use crate::source::bitmap_occupancy::processors::LEVELS;
use crate::source::bitmap_tree::{BitmapTree, BlankSeat};

// The first word of the level that has this many levels above it.
fn first_word(above: u32) -> u32 {
    match above {
        0 => 0,
        1 => 1,
        2 => 65,
        _ => 4161,
    }
}

// Returns the word of a level of which a processor is the first, if it is.
fn word_from(n: u32, level: u32, processor: u64) -> Option<u32> {
    let dim = 6 * level + 6;
    if processor % (1 << dim) != 0 {
        return None;
    }
    Some(first_word(n / 6 - level) + (processor >> dim) as u32)
}

// Reads the word of a level if a processor is its first.
fn read_word(
    tree: &BitmapTree,
    seat: &mut BlankSeat,
    path: &mut [u64; LEVELS],
    processor: u64,
    level: u32,
) {
    let Some(word) = word_from(tree.dim(), level, processor) else {
        return;
    };
    path[level as usize] = tree.read(seat, word);
}

// Reads the words of which a processor is the first, the top word apart.
pub(crate) fn read_words(
    tree: &BitmapTree,
    seat: &mut BlankSeat,
    path: &mut [u64; LEVELS],
    processor: u64,
) {
    for level in 0..tree.dim() / 6 {
        read_word(tree, seat, path, processor, level);
    }
}
