// Made from crates/bitmap_occupancy/src/counter.rt by checks/lib/erase.py. Change that file.
//! A count that goes from one processor to the next.

use crate::source::bitmap_occupancy::summary::FREE_PLACES;

/// What was counted of the processors so far.
#[derive(Clone, Copy)]
pub(crate) struct Counter {
    // The first processor after the last one that is held.
    pub(crate) from: u64,
    pub(crate) held: u64,
    pub(crate) free: [u64; FREE_PLACES],
}

// Returns whether a free block of dimension `k` ends before a processor, where none is held from
// `from` on.
fn ends_free(past: u64, from: u64, k: u32) -> bool {
    if past - from < 1 << k {
        return false;
    }
    past % (1 << k) == 0
}

// Counts the free blocks that end with a processor, where none is held from `from` on.
fn end_blocks(n: u32, free: &mut [u64; FREE_PLACES], processor: u64, from: u64) {
    for k in 0..n + 1 {
        if !ends_free(processor + 1, from, k) {
            return;
        }
        free[k as usize] += 1;
    }
}

// Counts one more processor, which is held or not.
pub(crate) fn add(n: u32, counter: &mut Counter, processor: u64, is_held: bool) {
    if !is_held {
        end_blocks(n, &mut counter.free, processor, counter.from);
        return;
    }
    counter.held += 1;
    counter.from = processor + 1;
}
