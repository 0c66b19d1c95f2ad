// Made by checks/lib/erase.py from the functions that crates/cubejobs_plan exports. Change those.
//! The functions of C of `cubejobs_plan`, over the erased sources.

use crate::source;

#[no_mangle]
pub extern "C" fn cubejobs_plan_occupy(plan: &mut source::cubejobs_plan::Handle, base: u64, dim: u32) -> u32 {
    source::cubejobs_plan::cubejobs_plan_occupy(plan, base, dim)
}

#[no_mangle]
pub extern "C" fn cubejobs_plan_vacate(plan: &mut source::cubejobs_plan::Handle, base: u64, dim: u32) -> u32 {
    source::cubejobs_plan::cubejobs_plan_vacate(plan, base, dim)
}

#[no_mangle]
pub extern "C" fn cubejobs_plan_cancel(plan: &mut source::cubejobs_plan::Handle, ticket: u64) -> source::cubejobs_plan::PlanJob {
    source::cubejobs_plan::cubejobs_plan_cancel(plan, ticket)
}

#[no_mangle]
pub extern "C" fn cubejobs_plan_finish(plan: &mut source::cubejobs_plan::Handle, ticket: u64) -> source::cubejobs_plan::PlanJob {
    source::cubejobs_plan::cubejobs_plan_finish(plan, ticket)
}

#[no_mangle]
pub extern "C" fn cubejobs_plan_submit(plan: &mut source::cubejobs_plan::Handle, request: source::sched_core::JobRequest) -> source::cubejobs_plan::PlanJob {
    source::cubejobs_plan::cubejobs_plan_submit(plan, request)
}

#[no_mangle]
pub extern "C" fn cubejobs_plan_forecast(plan: &mut source::cubejobs_plan::Handle, ticket: u64) -> source::cubejobs_plan::PlanJob {
    source::cubejobs_plan::cubejobs_plan_forecast(plan, ticket)
}

#[no_mangle]
pub extern "C" fn cubejobs_plan_after(plan: &mut source::cubejobs_plan::Handle, ticket: u64) -> source::cubejobs_plan::PlanJob {
    source::cubejobs_plan::cubejobs_plan_after(plan, ticket)
}

#[no_mangle]
pub extern "C" fn cubejobs_plan_counts(plan: &mut source::cubejobs_plan::Handle) -> source::cubejobs_plan::PlanCounts {
    source::cubejobs_plan::cubejobs_plan_counts(plan)
}

#[no_mangle]
pub extern "C" fn cubejobs_plan_next(plan: &mut source::cubejobs_plan::Handle, now: u64) -> source::cubejobs_plan::PlanJob {
    source::cubejobs_plan::cubejobs_plan_next(plan, now)
}

#[no_mangle]
pub extern "C" fn cubejobs_plan_bytes(options: source::cubejobs_plan::Options) -> u64 {
    source::cubejobs_plan::cubejobs_plan_bytes(options)
}

#[no_mangle]
pub extern "C" fn cubejobs_plan_open_version(plan: &mut source::cubejobs_plan::Handle, version: u32, options: source::cubejobs_plan::Options, memory: source::cubejobs_plan::Chunk, address: usize) -> u32 {
    source::cubejobs_plan::cubejobs_plan_open_version(plan, version, options, memory, address)
}

#[no_mangle]
pub extern "C" fn cubejobs_plan_close(plan: &mut source::cubejobs_plan::Handle) -> u32 {
    source::cubejobs_plan::cubejobs_plan_close(plan)
}
