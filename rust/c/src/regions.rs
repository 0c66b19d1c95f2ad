// Made by checks/lib/erase.py from the functions that crates/cubejobs_regions exports. Change those.
//! The functions of C of `cubejobs_regions`, over the erased sources.

use crate::source;

#[no_mangle]
pub extern "C" fn cubejobs_regions_release(thread: &mut source::cubejobs_regions::Handle, region: &mut source::cubejobs_regions::BlockHandle) -> u32 {
    source::cubejobs_regions::cubejobs_regions_release(thread, region)
}

#[no_mangle]
pub extern "C" fn cubejobs_regions_split(thread: &mut source::cubejobs_regions::Handle, region: &mut source::cubejobs_regions::BlockHandle, half: &mut source::cubejobs_regions::BlockHandle) -> u32 {
    source::cubejobs_regions::cubejobs_regions_split(thread, region, half)
}

#[no_mangle]
pub extern "C" fn cubejobs_regions_join(thread: &mut source::cubejobs_regions::Handle, region: &mut source::cubejobs_regions::BlockHandle, half: &mut source::cubejobs_regions::BlockHandle) -> u32 {
    source::cubejobs_regions::cubejobs_regions_join(thread, region, half)
}

#[no_mangle]
pub extern "C" fn cubejobs_regions_block(region: &source::cubejobs_regions::BlockHandle) -> source::cubejobs_regions::Answer {
    source::cubejobs_regions::cubejobs_regions_block(region)
}

#[no_mangle]
pub extern "C" fn cubejobs_regions_open_version(machine: &mut source::cubejobs_regions::Handle, version: u32, n: u32, number: u64) -> u32 {
    source::cubejobs_regions::cubejobs_regions_open_version(machine, version, n, number)
}

#[no_mangle]
pub extern "C" fn cubejobs_regions_share(thread: &mut source::cubejobs_regions::Handle, other: &mut source::cubejobs_regions::Handle) -> u32 {
    source::cubejobs_regions::cubejobs_regions_share(thread, other)
}

#[no_mangle]
pub extern "C" fn cubejobs_regions_free(thread: &mut source::cubejobs_regions::Handle) -> u32 {
    source::cubejobs_regions::cubejobs_regions_free(thread)
}

#[no_mangle]
pub extern "C" fn cubejobs_regions_occupancy(thread: &mut source::cubejobs_regions::Handle) -> source::cubejobs_regions::OccupancyAnswer {
    source::cubejobs_regions::cubejobs_regions_occupancy(thread)
}

#[no_mangle]
pub extern "C" fn cubejobs_regions_take(thread: &mut source::cubejobs_regions::Handle, region: &mut source::cubejobs_regions::BlockHandle, k: u32) -> source::cubejobs_regions::Answer {
    source::cubejobs_regions::cubejobs_regions_take(thread, region, k)
}

#[no_mangle]
pub extern "C" fn cubejobs_regions_take_exact(thread: &mut source::cubejobs_regions::Handle, region: &mut source::cubejobs_regions::BlockHandle, k: u32) -> source::cubejobs_regions::Answer {
    source::cubejobs_regions::cubejobs_regions_take_exact(thread, region, k)
}

#[no_mangle]
pub extern "C" fn cubejobs_regions_take_at(thread: &mut source::cubejobs_regions::Handle, region: &mut source::cubejobs_regions::BlockHandle, base: u64, k: u32) -> source::cubejobs_regions::Answer {
    source::cubejobs_regions::cubejobs_regions_take_at(thread, region, base, k)
}

#[no_mangle]
pub extern "C" fn cubejobs_regions_version_number() -> u32 {
    source::cubejobs_regions::cubejobs_regions_version_number()
}
