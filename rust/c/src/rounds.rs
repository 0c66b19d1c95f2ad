// Made by checks/lib/erase.py from the functions that crates/cubejobs_rounds exports. Change those.
//! The functions of C of `cubejobs_rounds`, over the erased sources.

use crate::source;

#[no_mangle]
pub extern "C" fn cubejobs_message_count(shape: u32, k: u32) -> source::cubejobs_rounds::CountAnswer {
    source::cubejobs_rounds::cubejobs_message_count(shape, k)
}

#[no_mangle]
pub extern "C" fn cubejobs_message(shape: u32, k: u32, root: u64, i: u64) -> source::cubejobs_rounds::MessageAnswer {
    source::cubejobs_rounds::cubejobs_message(shape, k, root, i)
}

#[no_mangle]
pub extern "C" fn cubejobs_step(shape: u32, k: u32, root: u64, rank: u64, round: u32) -> source::cubejobs_rounds::StepAnswer {
    source::cubejobs_rounds::cubejobs_step(shape, k, root, rank, round)
}

#[no_mangle]
pub extern "C" fn cubejobs_rounds_version_number() -> u32 {
    source::cubejobs_rounds::cubejobs_rounds_version_number()
}
