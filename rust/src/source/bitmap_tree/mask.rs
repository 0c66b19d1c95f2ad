// Made from crates/bitmap_tree/src/mask.rt by checks/lib/erase.py. Change that file.
//! The bits of a word.

/// The number of bits of a word, as a dimension.
pub const WORD_DIM: u32 = 6;

// The bits of a block of dimension `k` from an offset on.
pub(crate) fn mask_of(offset: u32, k: u32) -> u64 {
    (u64::MAX >> (64 - (1u32 << k))) << offset
}

// The bits of a word at which an aligned block of dimension `k` can begin.
pub(crate) fn starts(k: u32) -> u64 {
    match k {
        0 => u64::MAX,
        1 => 0x5555_5555_5555_5555,
        2 => 0x1111_1111_1111_1111,
        3 => 0x0101_0101_0101_0101,
        4 => 0x0001_0001_0001_0001,
        _ => 0x0000_0001_0000_0001,
    }
}

// Of the bits at which `2^k` free bits begin, those at which `2^(k + 1)` do.
pub(crate) fn doubled(free: u64, k: u32) -> u64 {
    free & (free >> (1u32 << k))
}

// The least offset at which a word has room for a block of dimension `k`, or 64. No proof rests on
// it.
fn first_room(word: u64, k: u32) -> u32 {
    let mut free = !word;
    for half in 0..k {
        free = doubled(free, half);
    }
    (free & starts(k)).trailing_zeros()
}

// The least offset of an aligned block of dimension `k` whose bits are clear, in a word of which
// the first `size` bits count.
pub(crate) fn fit_in(word: u64, size: u32, k: u32) -> Option<u32> {
    if word == u64::MAX {
        return None;
    }
    let likely = first_room(word, k) >> k;
    if likely < size >> k && word & mask_of(likely << k, k) == 0 {
        return Some(likely << k);
    }
    for i in word.trailing_ones() >> k..size >> k {
        let offset = i << k;
        if word & mask_of(offset, k) == 0 {
            return Some(offset);
        }
    }
    None
}
