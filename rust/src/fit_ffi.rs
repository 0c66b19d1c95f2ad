//! The functions of `include/cubejobs_fit.h`.
//!
//! Each function here takes the image as a slice, and looks at its place and length first. So the
//! library gets what it asks for: a head and rooms that exist, and that nothing else uses. Any
//! bytes will do.

pub const MAX_DIM: u32 = 20;
/// The number of bytes before the rooms.
pub const HEAD_BYTES: usize = 96;
/// The places of a count for each dimension.
pub const FREE_PLACES: usize = MAX_DIM as usize + 1;

pub const DONE: u32 = 0;
pub const NO_ROOM: u32 = 1;
pub const BAD_DIMENSION: u32 = 3;
pub const BAD_BASE: u32 = 4;
pub const TAKEN: u32 = 5;
pub const NOTHING_HELD: u32 = 6;
pub const NOT_HALVES: u32 = 9;
pub const BAD_SIZE: u32 = 50;
pub const BAD_IMAGE: u32 = 51;

#[repr(C)]
struct Head {
    words: [u32; 24],
}

#[repr(C)]
#[derive(Clone, Copy)]
pub struct Answer {
    pub code: u32,
    pub dim: u32,
    pub base: u64,
}

#[repr(C)]
#[derive(Clone, Copy)]
pub struct OccupancyAnswer {
    pub code: u32,
    pub largest: u32,
    pub has_free: bool,
    pub held: u64,
    pub free: [u64; FREE_PLACES],
}

// The sizes that the library was compiled with.
const _: () = assert!(size_of::<Head>() == HEAD_BYTES && align_of::<Head>() <= 8);
const _: () = assert!(size_of::<Answer>() == 16 && size_of::<OccupancyAnswer>() == 192);

#[link(name = "cubejobs_fit", kind = "static")]
unsafe extern "C" {
    fn cubejobs_image_open(head: *mut Head, rooms: *mut u8, count: usize, dim: u32) -> u32;
    fn cubejobs_image_check(head: *const Head, rooms: *const u8, count: usize, dim: u32) -> u32;
    fn cubejobs_image_repair(head: *mut Head, rooms: *mut u8, count: usize, dim: u32) -> u32;
    fn cubejobs_image_take(head: *mut Head, rooms: *mut u8, count: usize, dim: u32, k: u32) -> Answer;
    fn cubejobs_image_take_at(
        head: *mut Head,
        rooms: *mut u8,
        count: usize,
        dim: u32,
        base: u64,
        k: u32,
    ) -> Answer;
    fn cubejobs_image_release(
        head: *mut Head,
        rooms: *mut u8,
        count: usize,
        dim: u32,
        base: u64,
        k: u32,
    ) -> u32;
    fn cubejobs_image_split(
        head: *mut Head,
        rooms: *mut u8,
        count: usize,
        dim: u32,
        base: u64,
        k: u32,
    ) -> u32;
    fn cubejobs_image_join(head: *mut Head, rooms: *mut u8, count: usize, dim: u32, base: u64, k: u32)
        -> u32;
    fn cubejobs_image_first(head: *const Head, rooms: *const u8, count: usize, dim: u32, k: u32) -> Answer;
    fn cubejobs_image_first_apart(
        head: *const Head,
        rooms: *const u8,
        count: usize,
        dim: u32,
        k: u32,
        base: u64,
        avoid: u32,
    ) -> Answer;
    fn cubejobs_image_block_with(
        head: *const Head,
        rooms: *const u8,
        count: usize,
        dim: u32,
        processor: u64,
    ) -> Answer;
    fn cubejobs_image_is_free(
        head: *const Head,
        rooms: *const u8,
        count: usize,
        dim: u32,
        base: u64,
        k: u32,
    ) -> bool;
    fn cubejobs_image_largest(head: *const Head, rooms: *const u8, count: usize, dim: u32) -> Answer;
    fn cubejobs_image_free_blocks(head: *const Head, rooms: *const u8, count: usize, dim: u32, k: u32)
        -> u64;
    fn cubejobs_image_occupancy(
        head: *const Head,
        rooms: *const u8,
        count: usize,
        dim: u32,
    ) -> OccupancyAnswer;
}

/// Returns the head, the rooms and their number. Panics if the image has no whole head, or begins
/// at no multiple of 8.
#[allow(clippy::cast_ptr_alignment)] // it is looked at
fn parts(image: &[u8]) -> (*const Head, *const u8, usize) {
    assert!(image.len() >= HEAD_BYTES && image.as_ptr().align_offset(8) == 0);
    let head = image.as_ptr();
    (head.cast(), head.wrapping_add(HEAD_BYTES), image.len() - HEAD_BYTES)
}

/// Returns the same, for a call that writes.
#[allow(clippy::cast_ptr_alignment)] // it is looked at
fn parts_mut(image: &mut [u8]) -> (*mut Head, *mut u8, usize) {
    assert!(image.len() >= HEAD_BYTES && image.as_ptr().align_offset(8) == 0);
    let (head, count) = (image.as_mut_ptr(), image.len() - HEAD_BYTES);
    (head.cast(), head.wrapping_add(HEAD_BYTES), count)
}

pub fn open(image: &mut [u8], dim: u32) -> u32 {
    let (head, rooms, count) = parts_mut(image);
    // SAFETY: the head and the rooms are those of a slice that is borrowed for the call.
    unsafe { cubejobs_image_open(head, rooms, count, dim) }
}

pub fn check(image: &[u8], dim: u32) -> u32 {
    let (head, rooms, count) = parts(image);
    // SAFETY: as for an open. The call only reads.
    unsafe { cubejobs_image_check(head, rooms, count, dim) }
}

pub fn repair(image: &mut [u8], dim: u32) -> u32 {
    let (head, rooms, count) = parts_mut(image);
    // SAFETY: as for an open.
    unsafe { cubejobs_image_repair(head, rooms, count, dim) }
}

pub fn take(image: &mut [u8], dim: u32, k: u32) -> Answer {
    let (head, rooms, count) = parts_mut(image);
    // SAFETY: as for an open.
    unsafe { cubejobs_image_take(head, rooms, count, dim, k) }
}

pub fn take_at(image: &mut [u8], dim: u32, base: u64, k: u32) -> Answer {
    let (head, rooms, count) = parts_mut(image);
    // SAFETY: as for an open.
    unsafe { cubejobs_image_take_at(head, rooms, count, dim, base, k) }
}

pub fn release(image: &mut [u8], dim: u32, base: u64, k: u32) -> u32 {
    let (head, rooms, count) = parts_mut(image);
    // SAFETY: as for an open.
    unsafe { cubejobs_image_release(head, rooms, count, dim, base, k) }
}

pub fn split(image: &mut [u8], dim: u32, base: u64, k: u32) -> u32 {
    let (head, rooms, count) = parts_mut(image);
    // SAFETY: as for an open.
    unsafe { cubejobs_image_split(head, rooms, count, dim, base, k) }
}

pub fn join(image: &mut [u8], dim: u32, base: u64, k: u32) -> u32 {
    let (head, rooms, count) = parts_mut(image);
    // SAFETY: as for an open.
    unsafe { cubejobs_image_join(head, rooms, count, dim, base, k) }
}

pub fn first(image: &[u8], dim: u32, k: u32) -> Answer {
    let (head, rooms, count) = parts(image);
    // SAFETY: as for an open. The call only reads.
    unsafe { cubejobs_image_first(head, rooms, count, dim, k) }
}

pub fn first_apart(image: &[u8], dim: u32, k: u32, base: u64, avoid: u32) -> Answer {
    let (head, rooms, count) = parts(image);
    // SAFETY: as for an open. The call only reads.
    unsafe { cubejobs_image_first_apart(head, rooms, count, dim, k, base, avoid) }
}

pub fn block_with(image: &[u8], dim: u32, processor: u64) -> Answer {
    let (head, rooms, count) = parts(image);
    // SAFETY: as for an open. The call only reads.
    unsafe { cubejobs_image_block_with(head, rooms, count, dim, processor) }
}

pub fn is_free(image: &[u8], dim: u32, base: u64, k: u32) -> bool {
    let (head, rooms, count) = parts(image);
    // SAFETY: as for an open. The call only reads.
    unsafe { cubejobs_image_is_free(head, rooms, count, dim, base, k) }
}

pub fn largest(image: &[u8], dim: u32) -> Answer {
    let (head, rooms, count) = parts(image);
    // SAFETY: as for an open. The call only reads.
    unsafe { cubejobs_image_largest(head, rooms, count, dim) }
}

pub fn free_blocks(image: &[u8], dim: u32, k: u32) -> u64 {
    let (head, rooms, count) = parts(image);
    // SAFETY: as for an open. The call only reads.
    unsafe { cubejobs_image_free_blocks(head, rooms, count, dim, k) }
}

pub fn occupancy(image: &[u8], dim: u32) -> OccupancyAnswer {
    let (head, rooms, count) = parts(image);
    // SAFETY: as for an open. The call only reads.
    unsafe { cubejobs_image_occupancy(head, rooms, count, dim) }
}
