//! The calls of first fit, over the erased sources. They ask nothing.
//!
//! Each function here takes the image as a slice, and looks at its place and length first. Any
//! bytes will do.

use crate::source::cubejobs_fit as source;
use crate::source::fit_tree::Head;

pub use crate::source::cubejobs_fit::{Answer, OccupancyAnswer};
pub use crate::source::cubejobs_fit::{
    BAD_BASE, BAD_DIMENSION, BAD_IMAGE, BAD_SIZE, DONE, NOTHING_HELD, NOT_HALVES, NO_ROOM, TAKEN,
};

pub const MAX_DIM: u32 = crate::source::cube_shape::MAX_BITMAP_DIM;
/// The number of bytes before the rooms.
pub const HEAD_BYTES: usize = size_of::<Head>();
/// The places of a count for each dimension.
pub const FREE_PLACES: usize = crate::source::fit_tree::COUNT_PLACES;

const _: () = assert!(HEAD_BYTES as u64 == source::HEAD_BYTES && align_of::<Head>() <= 8);

/// Returns the head and the rooms. Panics if the image has no whole head, or begins at no multiple
/// of 8.
#[allow(clippy::cast_ptr_alignment)] // it is looked at
fn parts(image: &[u8]) -> (&Head, &[u8]) {
    assert!(image.as_ptr().align_offset(8) == 0);
    let (head, rooms) = image.split_at(HEAD_BYTES);
    // SAFETY: there are as many bytes as a head has, at its place. Any bytes are a head.
    (unsafe { &*head.as_ptr().cast() }, rooms)
}

/// Returns the same, for a call that writes.
#[allow(clippy::cast_ptr_alignment)] // it is looked at
fn parts_mut(image: &mut [u8]) -> (&mut Head, &mut [u8]) {
    assert!(image.as_ptr().align_offset(8) == 0);
    let (head, rooms) = image.split_at_mut(HEAD_BYTES);
    // SAFETY: as for `parts`, and any head is bytes. The bytes are borrowed as long as the head.
    (unsafe { &mut *head.as_mut_ptr().cast() }, rooms)
}

pub fn open(image: &mut [u8], dim: u32) -> u32 {
    let (head, rooms) = parts_mut(image);
    source::cubejobs_image_open(head, rooms, dim)
}

pub fn check(image: &[u8], dim: u32) -> u32 {
    let (head, rooms) = parts(image);
    source::cubejobs_image_check(head, rooms, dim)
}

pub fn repair(image: &mut [u8], dim: u32) -> u32 {
    let (head, rooms) = parts_mut(image);
    source::cubejobs_image_repair(head, rooms, dim)
}

pub fn take(image: &mut [u8], dim: u32, k: u32) -> Answer {
    let (head, rooms) = parts_mut(image);
    source::cubejobs_image_take(head, rooms, dim, k)
}

pub fn take_at(image: &mut [u8], dim: u32, base: u64, k: u32) -> Answer {
    let (head, rooms) = parts_mut(image);
    source::cubejobs_image_take_at(head, rooms, dim, base, k)
}

pub fn release(image: &mut [u8], dim: u32, base: u64, k: u32) -> u32 {
    let (head, rooms) = parts_mut(image);
    source::cubejobs_image_release(head, rooms, dim, base, k)
}

pub fn split(image: &mut [u8], dim: u32, base: u64, k: u32) -> u32 {
    let (head, rooms) = parts_mut(image);
    source::cubejobs_image_split(head, rooms, dim, base, k)
}

pub fn join(image: &mut [u8], dim: u32, base: u64, k: u32) -> u32 {
    let (head, rooms) = parts_mut(image);
    source::cubejobs_image_join(head, rooms, dim, base, k)
}

pub fn first(image: &[u8], dim: u32, k: u32) -> Answer {
    let (head, rooms) = parts(image);
    source::cubejobs_image_first(head, rooms, dim, k)
}

pub fn first_apart(image: &[u8], dim: u32, k: u32, base: u64, avoid: u32) -> Answer {
    let (head, rooms) = parts(image);
    source::cubejobs_image_first_apart(head, rooms, dim, k, base, avoid)
}

pub fn block_with(image: &[u8], dim: u32, processor: u64) -> Answer {
    let (head, rooms) = parts(image);
    source::cubejobs_image_block_with(head, rooms, dim, processor)
}

pub fn is_free(image: &[u8], dim: u32, base: u64, k: u32) -> bool {
    let (head, rooms) = parts(image);
    source::cubejobs_image_is_free(head, rooms, dim, base, k)
}

pub fn largest(image: &[u8], dim: u32) -> Answer {
    let (head, rooms) = parts(image);
    source::cubejobs_image_largest(head, rooms, dim)
}

pub fn free_blocks(image: &[u8], dim: u32, k: u32) -> u64 {
    let (head, rooms) = parts(image);
    source::cubejobs_image_free_blocks(head, rooms, dim, k)
}

pub fn occupancy(image: &[u8], dim: u32) -> OccupancyAnswer {
    let (head, rooms) = parts(image);
    source::cubejobs_image_occupancy(head, rooms, dim)
}
