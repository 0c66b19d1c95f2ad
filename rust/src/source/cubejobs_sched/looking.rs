// Made from crates/cubejobs_sched/src/looking.rt by checks/lib/erase.py. Change that file.
//! How callers look at a scheduler.

use crate::source::cubejobs_sched::answer::{CountsAnswer, SchedForecast};
use crate::source::cubejobs_sched::codes::NOT_NOW;
use crate::source::cubejobs_sched::look_answers::{no_counts, no_forecast, of_counts, of_forecast};
use crate::source::sched_threads::{NotNow, Threads, TurnReceipt};

// Returns what is known of a job.
pub(crate) fn forecast(threads: &Threads, ticket: u64) -> (SchedForecast, TurnReceipt) {
    match threads.look(ticket) {
        Ok((answer, receipt)) => (of_forecast(answer), receipt),
        Err(NotNow { receipt }) => (no_forecast(NOT_NOW), receipt),
    }
}

// Returns how much the scheduler does.
pub(crate) fn counts(threads: &Threads) -> (CountsAnswer, TurnReceipt) {
    match threads.counts() {
        Ok((answer, receipt)) => (of_counts(answer), receipt),
        Err(NotNow { receipt }) => (no_counts(NOT_NOW), receipt),
    }
}
