// Made from crates/cubejobs_sched/src/closing.rt by checks/lib/erase.py. Change that file.
//! How a scheduler closes.

use crate::source::cubejobs_sched::answer::SchedAnswer;
use crate::source::cubejobs_sched::answers::{of_close, of_effect, of_rest, refused};
use crate::source::cubejobs_sched::codes::NOT_NOW;
use crate::source::sched_threads::{NotNow, Threads, TurnReceipt};

// Lets no job come any more.
pub(crate) fn close(threads: &Threads, do_start: bool, now: u64) -> (SchedAnswer, TurnReceipt) {
    match threads.close(do_start, now) {
        Ok((answer, receipt)) => (of_close(answer), receipt),
        Err(NotNow { receipt }) => (refused(NOT_NOW), receipt),
    }
}

// Gives back the first waiting job in slots from one on.
pub(crate) fn rest(threads: &Threads, from: u32) -> (SchedAnswer, TurnReceipt) {
    match threads.give_back(from) {
        Ok((answer, receipt)) => (of_rest(answer), receipt),
        Err(NotNow { receipt }) => (refused(NOT_NOW), receipt),
    }
}

// Starts jobs for workers that wait.
pub(crate) fn settle(threads: &Threads, now: u64) -> (SchedAnswer, TurnReceipt) {
    match threads.settle(now) {
        Ok((answer, receipt)) => (of_effect(answer, 0, 0), receipt),
        Err(NotNow { receipt }) => (refused(NOT_NOW), receipt),
    }
}
