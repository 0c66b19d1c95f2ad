// Made from crates/cubejobs_sched/src/leaving.rt by checks/lib/erase.py. Change that file.
//! How workers end their jobs, and how threads cease to be workers.

use crate::source::cubejobs_sched::answer::SchedAnswer;
use crate::source::cubejobs_sched::answers::refused;
use crate::source::cubejobs_sched::codes::NOT_NOW;
use crate::source::cubejobs_sched::worker_answers::of_end;
use crate::source::sched_threads::{NotNow, Threads, TurnReceipt};

// Ends the job of a worker.
pub(crate) fn done(threads: &Threads, worker: u32, now: u64) -> (SchedAnswer, TurnReceipt) {
    match threads.done(worker, now) {
        Ok((answer, receipt)) => (of_end(answer), receipt),
        Err(NotNow { receipt }) => (refused(NOT_NOW), receipt),
    }
}

// Lets the thread be the worker no longer.
pub(crate) fn rise(threads: &Threads, worker: u32, now: u64) -> (SchedAnswer, TurnReceipt) {
    match threads.rise(worker, now) {
        Ok((answer, receipt)) => (of_end(answer), receipt),
        Err(NotNow { receipt }) => (refused(NOT_NOW), receipt),
    }
}

// Lets no thread be a worker whose thread is gone.
pub(crate) fn lose(threads: &Threads, worker: u32, now: u64) -> (SchedAnswer, TurnReceipt) {
    match threads.lose(worker, now) {
        Ok((answer, receipt)) => (of_end(answer), receipt),
        Err(NotNow { receipt }) => (refused(NOT_NOW), receipt),
    }
}
