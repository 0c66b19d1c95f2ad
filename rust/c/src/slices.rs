//! Slices of what C passes as a pointer and a number.
#![allow(dead_code)]

use core::slice::{from_raw_parts, from_raw_parts_mut};

/// Returns the slice of a pointer and a number. The pointer of an empty one may be null.
///
/// # Safety
/// The number of values are there, and nothing writes to them while the slice is used.
pub unsafe fn slice<'a, T>(values: *const T, count: usize) -> &'a [T] {
    if count == 0 {
        return &[];
    }
    // SAFETY: as the caller promises.
    unsafe { from_raw_parts(values, count) }
}

/// Returns the slice of a pointer and a number, which may be written. The pointer of an empty one
/// may be null.
///
/// # Safety
/// The number of values are there, and nothing else uses them while the slice is used.
pub unsafe fn slice_mut<'a, T>(values: *mut T, count: usize) -> &'a mut [T] {
    if count == 0 {
        return &mut [];
    }
    // SAFETY: as the caller promises.
    unsafe { from_raw_parts_mut(values, count) }
}
