// Made by checks/lib/erase.py from the functions that crates/cubejobs_fit exports. Change those.
//! The functions of C of `cubejobs_fit`, over the erased sources.

use crate::source;
use crate::slices::{slice, slice_mut};

/// # Safety
/// The pointer and the number are of a slice that no other call uses.
#[no_mangle]
pub unsafe extern "C" fn cubejobs_image_largest(head: &source::fit_tree::Head, rooms: *const u8, rooms_count: usize, n: u32) -> source::cubejobs_fit::Answer {
    source::cubejobs_fit::cubejobs_image_largest(head, unsafe { slice(rooms, rooms_count) }, n)
}

/// # Safety
/// The pointer and the number are of a slice that no other call uses.
#[no_mangle]
pub unsafe extern "C" fn cubejobs_image_free_blocks(head: &source::fit_tree::Head, rooms: *const u8, rooms_count: usize, n: u32, k: u32) -> u64 {
    source::cubejobs_fit::cubejobs_image_free_blocks(head, unsafe { slice(rooms, rooms_count) }, n, k)
}

/// # Safety
/// The pointer and the number are of a slice that no other call uses.
#[no_mangle]
pub unsafe extern "C" fn cubejobs_image_release(head: &mut source::fit_tree::Head, rooms: *mut u8, rooms_count: usize, n: u32, base: u64, k: u32) -> u32 {
    source::cubejobs_fit::cubejobs_image_release(head, unsafe { slice_mut(rooms, rooms_count) }, n, base, k)
}

/// # Safety
/// The pointer and the number are of a slice that no other call uses.
#[no_mangle]
pub unsafe extern "C" fn cubejobs_image_split(head: &mut source::fit_tree::Head, rooms: *mut u8, rooms_count: usize, n: u32, base: u64, k: u32) -> u32 {
    source::cubejobs_fit::cubejobs_image_split(head, unsafe { slice_mut(rooms, rooms_count) }, n, base, k)
}

/// # Safety
/// The pointer and the number are of a slice that no other call uses.
#[no_mangle]
pub unsafe extern "C" fn cubejobs_image_join(head: &mut source::fit_tree::Head, rooms: *mut u8, rooms_count: usize, n: u32, base: u64, k: u32) -> u32 {
    source::cubejobs_fit::cubejobs_image_join(head, unsafe { slice_mut(rooms, rooms_count) }, n, base, k)
}

/// # Safety
/// The pointer and the number are of a slice that no other call uses.
#[no_mangle]
pub unsafe extern "C" fn cubejobs_image_first(head: &source::fit_tree::Head, rooms: *const u8, rooms_count: usize, n: u32, k: u32) -> source::cubejobs_fit::Answer {
    source::cubejobs_fit::cubejobs_image_first(head, unsafe { slice(rooms, rooms_count) }, n, k)
}

/// # Safety
/// The pointer and the number are of a slice that no other call uses.
#[no_mangle]
pub unsafe extern "C" fn cubejobs_image_first_apart(head: &source::fit_tree::Head, rooms: *const u8, rooms_count: usize, n: u32, k: u32, base: u64, avoid: u32) -> source::cubejobs_fit::Answer {
    source::cubejobs_fit::cubejobs_image_first_apart(head, unsafe { slice(rooms, rooms_count) }, n, k, base, avoid)
}

/// # Safety
/// The pointer and the number are of a slice that no other call uses.
#[no_mangle]
pub unsafe extern "C" fn cubejobs_image_block_with(head: &source::fit_tree::Head, rooms: *const u8, rooms_count: usize, n: u32, processor: u64) -> source::cubejobs_fit::Answer {
    source::cubejobs_fit::cubejobs_image_block_with(head, unsafe { slice(rooms, rooms_count) }, n, processor)
}

/// # Safety
/// The pointer and the number are of a slice that no other call uses.
#[no_mangle]
pub unsafe extern "C" fn cubejobs_image_is_free(head: &source::fit_tree::Head, rooms: *const u8, rooms_count: usize, n: u32, base: u64, k: u32) -> bool {
    source::cubejobs_fit::cubejobs_image_is_free(head, unsafe { slice(rooms, rooms_count) }, n, base, k)
}

/// # Safety
/// The pointer and the number are of a slice that no other call uses.
#[no_mangle]
pub unsafe extern "C" fn cubejobs_image_occupancy(head: &source::fit_tree::Head, rooms: *const u8, rooms_count: usize, n: u32) -> source::cubejobs_fit::OccupancyAnswer {
    source::cubejobs_fit::cubejobs_image_occupancy(head, unsafe { slice(rooms, rooms_count) }, n)
}

#[no_mangle]
pub extern "C" fn cubejobs_fit_bytes(n: u32) -> u64 {
    source::cubejobs_fit::cubejobs_fit_bytes(n)
}

/// # Safety
/// The pointer and the number are of a slice that no other call uses.
#[no_mangle]
pub unsafe extern "C" fn cubejobs_image_open(head: &mut source::fit_tree::Head, rooms: *mut u8, rooms_count: usize, n: u32) -> u32 {
    source::cubejobs_fit::cubejobs_image_open(head, unsafe { slice_mut(rooms, rooms_count) }, n)
}

/// # Safety
/// The pointer and the number are of a slice that no other call uses.
#[no_mangle]
pub unsafe extern "C" fn cubejobs_image_check(head: &source::fit_tree::Head, rooms: *const u8, rooms_count: usize, n: u32) -> u32 {
    source::cubejobs_fit::cubejobs_image_check(head, unsafe { slice(rooms, rooms_count) }, n)
}

/// # Safety
/// The pointer and the number are of a slice that no other call uses.
#[no_mangle]
pub unsafe extern "C" fn cubejobs_image_repair(head: &mut source::fit_tree::Head, rooms: *mut u8, rooms_count: usize, n: u32) -> u32 {
    source::cubejobs_fit::cubejobs_image_repair(head, unsafe { slice_mut(rooms, rooms_count) }, n)
}

/// # Safety
/// The pointer and the number are of a slice that no other call uses.
#[no_mangle]
pub unsafe extern "C" fn cubejobs_image_take(head: &mut source::fit_tree::Head, rooms: *mut u8, rooms_count: usize, n: u32, k: u32) -> source::cubejobs_fit::Answer {
    source::cubejobs_fit::cubejobs_image_take(head, unsafe { slice_mut(rooms, rooms_count) }, n, k)
}

/// # Safety
/// The pointer and the number are of a slice that no other call uses.
#[no_mangle]
pub unsafe extern "C" fn cubejobs_image_take_at(head: &mut source::fit_tree::Head, rooms: *mut u8, rooms_count: usize, n: u32, base: u64, k: u32) -> source::cubejobs_fit::Answer {
    source::cubejobs_fit::cubejobs_image_take_at(head, unsafe { slice_mut(rooms, rooms_count) }, n, base, k)
}

#[no_mangle]
pub extern "C" fn cubejobs_fit_version_number() -> u32 {
    source::cubejobs_fit::cubejobs_fit_version_number()
}
