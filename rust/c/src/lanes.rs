// Made by checks/lib/erase.py from the functions that crates/cubejobs_lanes exports. Change those.
//! The functions of C of `cubejobs_lanes`, over the erased sources.

use crate::source;

#[no_mangle]
pub extern "C" fn cubejobs_lanes_close(owner: &mut source::cubejobs_lanes::Handle) -> source::cubejobs_lanes::CloseAnswer {
    source::cubejobs_lanes::cubejobs_lanes_close(owner)
}

#[no_mangle]
pub extern "C" fn cubejobs_lanes_free_lane(lane: &mut source::cubejobs_lanes::Handle) -> u32 {
    source::cubejobs_lanes::cubejobs_lanes_free_lane(lane)
}

#[no_mangle]
pub extern "C" fn cubejobs_lanes_free_worker(worker: &mut source::cubejobs_lanes::Handle) -> u32 {
    source::cubejobs_lanes::cubejobs_lanes_free_worker(worker)
}

#[no_mangle]
pub extern "C" fn cubejobs_lanes_finish(owner: &mut source::cubejobs_lanes::Handle) -> source::cubejobs_lanes::FinishAnswer {
    source::cubejobs_lanes::cubejobs_lanes_finish(owner)
}

#[no_mangle]
pub extern "C" fn cubejobs_lanes_submit(lane: &mut source::cubejobs_lanes::Handle, payload: u64, dim: u32) -> source::cubejobs_lanes::SubmitAnswer {
    source::cubejobs_lanes::cubejobs_lanes_submit(lane, payload, dim)
}

#[no_mangle]
pub extern "C" fn cubejobs_lanes_take(worker: &mut source::cubejobs_lanes::Handle, lane: u32) -> source::cubejobs_lanes::JobAnswer {
    source::cubejobs_lanes::cubejobs_lanes_take(worker, lane)
}

#[no_mangle]
pub extern "C" fn cubejobs_lanes_take_any(worker: &mut source::cubejobs_lanes::Handle, from: u32) -> source::cubejobs_lanes::JobAnswer {
    source::cubejobs_lanes::cubejobs_lanes_take_any(worker, from)
}

#[no_mangle]
pub extern "C" fn cubejobs_lanes_look(worker: &mut source::cubejobs_lanes::Handle, lane: u32) -> source::cubejobs_lanes::LookAnswer {
    source::cubejobs_lanes::cubejobs_lanes_look(worker, lane)
}

#[no_mangle]
pub extern "C" fn cubejobs_lanes_rest(owner: &mut source::cubejobs_lanes::Handle) -> source::cubejobs_lanes::JobAnswer {
    source::cubejobs_lanes::cubejobs_lanes_rest(owner)
}

#[no_mangle]
pub extern "C" fn cubejobs_lanes_free(owner: &mut source::cubejobs_lanes::Handle) -> u32 {
    source::cubejobs_lanes::cubejobs_lanes_free(owner)
}

#[no_mangle]
pub extern "C" fn cubejobs_lanes_open_version(owner: &mut source::cubejobs_lanes::Handle, version: u32, sizes: source::cubejobs_lanes::LaneSizes) -> u32 {
    source::cubejobs_lanes::cubejobs_lanes_open_version(owner, version, sizes)
}

#[no_mangle]
pub extern "C" fn cubejobs_lanes_lane(owner: &mut source::cubejobs_lanes::Handle, lane: &mut source::cubejobs_lanes::Handle) -> u32 {
    source::cubejobs_lanes::cubejobs_lanes_lane(owner, lane)
}

#[no_mangle]
pub extern "C" fn cubejobs_lanes_worker(owner: &mut source::cubejobs_lanes::Handle, worker: &mut source::cubejobs_lanes::Handle) -> u32 {
    source::cubejobs_lanes::cubejobs_lanes_worker(owner, worker)
}

#[no_mangle]
pub extern "C" fn cubejobs_lanes_find(worker: &mut source::cubejobs_lanes::Handle, from: u32) -> source::cubejobs_lanes::FindAnswer {
    source::cubejobs_lanes::cubejobs_lanes_find(worker, from)
}

#[no_mangle]
pub extern "C" fn cubejobs_lanes_awake(worker: &mut source::cubejobs_lanes::Handle) -> u32 {
    source::cubejobs_lanes::cubejobs_lanes_awake(worker)
}

#[no_mangle]
pub extern "C" fn cubejobs_lanes_worker_number(worker: &mut source::cubejobs_lanes::Handle) -> source::cubejobs_lanes::NumberAnswer {
    source::cubejobs_lanes::cubejobs_lanes_worker_number(worker)
}

#[no_mangle]
pub extern "C" fn cubejobs_lanes_wake(lane: &mut source::cubejobs_lanes::Handle) -> source::cubejobs_lanes::WakeAnswer {
    source::cubejobs_lanes::cubejobs_lanes_wake(lane)
}

#[no_mangle]
pub extern "C" fn cubejobs_lanes_version_number() -> u32 {
    source::cubejobs_lanes::cubejobs_lanes_version_number()
}
