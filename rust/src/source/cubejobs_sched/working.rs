// Made from crates/cubejobs_sched/src/working.rt by checks/lib/erase.py. Change that file.
//! How threads become workers, and what workers ask.

use crate::source::cubejobs_sched::answer::SchedAnswer;
use crate::source::cubejobs_sched::answers::refused;
use crate::source::cubejobs_sched::codes::NOT_NOW;
use crate::source::cubejobs_sched::worker_answers::{of_give_up, of_next, of_sit};
use crate::source::sched_threads::{NotNow, Threads, TurnReceipt};

// Makes the thread a worker.
pub(crate) fn sit(threads: &Threads) -> (SchedAnswer, TurnReceipt) {
    match threads.sit() {
        Ok((answer, receipt)) => (of_sit(answer), receipt),
        Err(NotNow { receipt }) => (refused(NOT_NOW), receipt),
    }
}

// Ends the job of a worker, and lets it wait for the next.
pub(crate) fn next(threads: &Threads, worker: u32, now: u64) -> (SchedAnswer, TurnReceipt) {
    match threads.next(worker, now) {
        Ok((answer, receipt)) => (of_next(answer), receipt),
        Err(NotNow { receipt }) => (refused(NOT_NOW), receipt),
    }
}

// Lets a worker wait no longer.
pub(crate) fn give_up(threads: &Threads, worker: u32, now: u64) -> (SchedAnswer, TurnReceipt) {
    match threads.give_up(worker, now) {
        Ok((answer, receipt)) => (of_give_up(answer), receipt),
        Err(NotNow { receipt }) => (refused(NOT_NOW), receipt),
    }
}
