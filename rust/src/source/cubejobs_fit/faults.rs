// Made from crates/cubejobs_fit/src/faults.rt by checks/lib/erase.py. Change that file.
//! The faults of arguments, in the order in which calls check them.

use crate::source::cubejobs_fit::codes::{BAD_BASE, BAD_DIMENSION, BAD_SIZE, DONE};
use crate::source::cube_shape::{MAX_BITMAP_DIM, Region};
use crate::source::fit_tree::image;

// Returns how many rooms a machine of dimension `n` has.
pub(crate) fn room_count(n: u32) -> usize {
    1 << (n + 1)
}

// Returns `DONE` if there is a machine of dimension `n` and it has this number of rooms. Otherwise
// returns the fault: `BAD_DIMENSION`, or else `BAD_SIZE`.
pub(crate) fn fault_of_size(rooms: &[u8], n: u32) -> u32 {
    if n > MAX_BITMAP_DIM {
        return BAD_DIMENSION;
    }
    if rooms.len() != room_count(n) {
        return BAD_SIZE;
    }
    DONE
}

// Returns `DONE` if the size is right and the machine has blocks of dimension `k`. Otherwise
// returns the fault: that of the size, or else `BAD_DIMENSION`.
pub(crate) fn fault_of_dim(rooms: &[u8], n: u32, k: u32) -> u32 {
    let fault = fault_of_size(rooms, n);
    if fault == DONE && k > n {
        return BAD_DIMENSION;
    }
    fault
}

// Returns `DONE` if the size is right and this is a block of the machine. Otherwise returns the
// fault: that of the size, or else `BAD_DIMENSION`, or else `BAD_BASE`.
pub(crate) fn fault_of_block(rooms: &[u8], n: u32, region: Region) -> u32 {
    let fault = fault_of_dim(rooms, n, region.dim);
    if fault == DONE && !image::is_aligned(n, region) {
        return BAD_BASE;
    }
    fault
}

// Returns `DONE` if the size is right and this is a block of the machine that has halves. Otherwise
// returns the fault: that of the size, or else `BAD_DIMENSION`, or else `BAD_BASE`.
pub(crate) fn fault_of_whole(rooms: &[u8], n: u32, region: Region) -> u32 {
    let fault = fault_of_size(rooms, n);
    if fault == DONE && region.dim == 0 {
        return BAD_DIMENSION;
    }
    fault_of_block(rooms, n, region)
}
