// Made by checks/lib/erase.py from the functions that crates/cubejobs_sched exports. Change those.
//! The functions of C of `cubejobs_sched`, over the erased sources.

use crate::source;

#[no_mangle]
pub extern "C" fn cubejobs_sched_try_occupy(sched: &mut source::cubejobs_sched::Handle, base: u64, dim: u32, now: u64) -> source::cubejobs_sched::SchedAnswer {
    source::cubejobs_sched::cubejobs_sched_try_occupy(sched, base, dim, now)
}

#[no_mangle]
pub extern "C" fn cubejobs_sched_try_vacate(sched: &mut source::cubejobs_sched::Handle, base: u64, dim: u32, now: u64) -> source::cubejobs_sched::SchedAnswer {
    source::cubejobs_sched::cubejobs_sched_try_vacate(sched, base, dim, now)
}

#[no_mangle]
pub extern "C" fn cubejobs_sched_try_close(sched: &mut source::cubejobs_sched::Handle, mode: u32, now: u64) -> source::cubejobs_sched::SchedAnswer {
    source::cubejobs_sched::cubejobs_sched_try_close(sched, mode, now)
}

#[no_mangle]
pub extern "C" fn cubejobs_sched_try_rest(sched: &mut source::cubejobs_sched::Handle, after: u32) -> source::cubejobs_sched::SchedAnswer {
    source::cubejobs_sched::cubejobs_sched_try_rest(sched, after)
}

#[no_mangle]
pub extern "C" fn cubejobs_sched_try_settle(sched: &mut source::cubejobs_sched::Handle, now: u64) -> source::cubejobs_sched::SchedAnswer {
    source::cubejobs_sched::cubejobs_sched_try_settle(sched, now)
}

#[no_mangle]
pub extern "C" fn cubejobs_sched_try_submit(sched: &mut source::cubejobs_sched::Handle, request: source::sched_threads::JobRequest, now: u64) -> source::cubejobs_sched::SchedAnswer {
    source::cubejobs_sched::cubejobs_sched_try_submit(sched, request, now)
}

#[no_mangle]
pub extern "C" fn cubejobs_sched_try_cancel(sched: &mut source::cubejobs_sched::Handle, ticket: u64, now: u64) -> source::cubejobs_sched::SchedAnswer {
    source::cubejobs_sched::cubejobs_sched_try_cancel(sched, ticket, now)
}

#[no_mangle]
pub extern "C" fn cubejobs_sched_try_done(sched: &mut source::cubejobs_sched::Handle, worker: u32, now: u64) -> source::cubejobs_sched::SchedAnswer {
    source::cubejobs_sched::cubejobs_sched_try_done(sched, worker, now)
}

#[no_mangle]
pub extern "C" fn cubejobs_sched_try_leave(sched: &mut source::cubejobs_sched::Handle, worker: u32, now: u64) -> source::cubejobs_sched::SchedAnswer {
    source::cubejobs_sched::cubejobs_sched_try_leave(sched, worker, now)
}

#[no_mangle]
pub extern "C" fn cubejobs_sched_try_lost(sched: &mut source::cubejobs_sched::Handle, worker: u32, now: u64) -> source::cubejobs_sched::SchedAnswer {
    source::cubejobs_sched::cubejobs_sched_try_lost(sched, worker, now)
}

#[no_mangle]
pub extern "C" fn cubejobs_sched_try_forecast(sched: &mut source::cubejobs_sched::Handle, ticket: u64) -> source::cubejobs_sched::SchedForecast {
    source::cubejobs_sched::cubejobs_sched_try_forecast(sched, ticket)
}

#[no_mangle]
pub extern "C" fn cubejobs_sched_try_counts(sched: &mut source::cubejobs_sched::Handle) -> source::cubejobs_sched::CountsAnswer {
    source::cubejobs_sched::cubejobs_sched_try_counts(sched)
}

#[no_mangle]
pub extern "C" fn cubejobs_sched_open_version(sched: &mut source::cubejobs_sched::Handle, version: u32, options: source::cubejobs_sched::SchedOptions) -> u32 {
    source::cubejobs_sched::cubejobs_sched_open_version(sched, version, options)
}

#[no_mangle]
pub extern "C" fn cubejobs_sched_share(sched: &mut source::cubejobs_sched::Handle, other: &mut source::cubejobs_sched::Handle) -> u32 {
    source::cubejobs_sched::cubejobs_sched_share(sched, other)
}

#[no_mangle]
pub extern "C" fn cubejobs_sched_try_free(sched: &mut source::cubejobs_sched::Handle) -> u32 {
    source::cubejobs_sched::cubejobs_sched_try_free(sched)
}

#[no_mangle]
pub extern "C" fn cubejobs_sched_try_worker(sched: &mut source::cubejobs_sched::Handle) -> source::cubejobs_sched::SchedAnswer {
    source::cubejobs_sched::cubejobs_sched_try_worker(sched)
}

#[no_mangle]
pub extern "C" fn cubejobs_sched_try_next(sched: &mut source::cubejobs_sched::Handle, worker: u32, now: u64) -> source::cubejobs_sched::SchedAnswer {
    source::cubejobs_sched::cubejobs_sched_try_next(sched, worker, now)
}

#[no_mangle]
pub extern "C" fn cubejobs_sched_try_give_up(sched: &mut source::cubejobs_sched::Handle, worker: u32, now: u64) -> source::cubejobs_sched::SchedAnswer {
    source::cubejobs_sched::cubejobs_sched_try_give_up(sched, worker, now)
}
