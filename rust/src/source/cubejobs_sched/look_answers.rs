// Made from crates/cubejobs_sched/src/look_answers.rt by checks/lib/erase.py. Change that file.
//! Answers to callers that look at a scheduler, as callers in C read them.

use crate::source::cubejobs_sched::answer::{CountsAnswer, SchedForecast};
use crate::source::cubejobs_sched::codes::{DONE, NO_JOB};
use crate::source::sched_threads::{Forecast, SchedCounts};

// Returns a forecast with nothing but a code.
pub(crate) fn no_forecast(code: u32) -> SchedForecast {
    SchedForecast {
        code,
        state: 0,
        base: 0,
        time: 0,
        dim: 0,
        unused: 0,
    }
}

// Returns counts with nothing but a code.
pub(crate) fn no_counts(code: u32) -> CountsAnswer {
    CountsAnswer {
        code,
        held: 0,
        occupied: 0,
        unused: 0,
        waiting: 0,
        running: 0,
        asked: 0,
    }
}

// Returns what is known of a job.
pub(crate) fn of_forecast(answer: Option<Forecast>) -> SchedForecast {
    match answer {
        None => no_forecast(NO_JOB),
        Some(Forecast::Nothing) => no_forecast(DONE),
        Some(Forecast::Queued) => SchedForecast {
            state: 1,
            ..no_forecast(DONE)
        },
        Some(Forecast::Promised(block, time)) => SchedForecast {
            code: DONE,
            state: 2,
            base: block.base,
            time,
            dim: block.dim,
            unused: 0,
        },
        Some(Forecast::Started(block, time)) => SchedForecast {
            code: DONE,
            state: 3,
            base: block.base,
            time,
            dim: block.dim,
            unused: 0,
        },
    }
}

// Returns how much a scheduler does.
pub(crate) fn of_counts(counts: SchedCounts) -> CountsAnswer {
    CountsAnswer {
        code: DONE,
        held: counts.held,
        occupied: counts.occupied,
        unused: 0,
        waiting: counts.waiting,
        running: counts.running,
        asked: counts.asked,
    }
}
