// Made from crates/cubejobs_sched/src/serving.rt by checks/lib/erase.py. Change that file.
//! How blocks go out of service, and come back.

use crate::source::cubejobs_sched::answer::SchedAnswer;
use crate::source::cubejobs_sched::answers::{of_block, refused};
use crate::source::cubejobs_sched::codes::NOT_NOW;
use crate::source::sched_threads::{NotNow, Threads, TurnReceipt};

// Takes a block out of service.
pub(crate) fn occupy(threads: &Threads, base: u64, dim: u32, now: u64) -> (SchedAnswer, TurnReceipt) {
    match threads.take_out(base, dim, now) {
        Ok((answer, receipt)) => (of_block(answer), receipt),
        Err(NotNow { receipt }) => (refused(NOT_NOW), receipt),
    }
}

// Puts a block back into service.
pub(crate) fn vacate(threads: &Threads, base: u64, dim: u32, now: u64) -> (SchedAnswer, TurnReceipt) {
    match threads.put_back(base, dim, now) {
        Ok((answer, receipt)) => (of_block(answer), receipt),
        Err(NotNow { receipt }) => (refused(NOT_NOW), receipt),
    }
}
