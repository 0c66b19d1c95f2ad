// Made from crates/cubejobs_sched/src/jobs.rt by checks/lib/erase.py. Change that file.
//! How jobs are submitted and cancelled.

use crate::source::cubejobs_sched::answer::SchedAnswer;
use crate::source::cubejobs_sched::answers::{of_cancel, of_submit, refused};
use crate::source::cubejobs_sched::codes::NOT_NOW;
use crate::source::sched_threads::{JobRequest, NotNow, Threads, TurnReceipt};

// Submits a job.
pub(crate) fn submit(threads: &Threads, request: JobRequest, now: u64) -> (SchedAnswer, TurnReceipt) {
    match threads.submit(request, now) {
        Ok((answer, receipt)) => (of_submit(answer), receipt),
        Err(NotNow { receipt }) => (refused(NOT_NOW), receipt),
    }
}

// Cancels a job that waits.
pub(crate) fn cancel(threads: &Threads, ticket: u64, now: u64) -> (SchedAnswer, TurnReceipt) {
    match threads.cancel(ticket, now) {
        Ok((answer, receipt)) => (of_cancel(ticket, answer), receipt),
        Err(NotNow { receipt }) => (refused(NOT_NOW), receipt),
    }
}
