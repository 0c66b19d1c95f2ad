// Made from crates/cubejobs_sched/src/look_exports.rt by checks/lib/erase.py. Change that file.
//! The functions of the library that look at a scheduler, under the names that C declares.

use crate::source::cubejobs_sched::answer::{CountsAnswer, SchedForecast};
use crate::source::cubejobs_sched::codes::{NOT_NOW, NOT_OPEN};
use crate::source::cubejobs_sched::handle::Handle;
use crate::source::cubejobs_sched::look_answers::{no_counts, no_forecast};
use crate::source::cubejobs_sched::looking::{counts, forecast};
use crate::source::cubejobs_sched::places::threads_at;

/// Answers what is known of when and where a job runs.
///
/// `NO_JOB`: the ticket is of no job, or of one that is over.
///
/// # Clauses of the proved source
///
/// - ensures not_open: `owner_of sched.old ≡ None → result ≡ forecast_refusal NOT_OPEN`
/// - ensures only: `result.code ≡ NOT_OPEN → owner_of sched.old ≡ None`
/// - ensures made: `IsSome (owner_of sched.old) → MadeAt sched.new (forecast_refusal NOT_NOW) (λ answer. Untimed (Reads (IsLookAnswer ticket answer))) forecast_answer result`
/// - ensures kept: `owner_of sched.new ≡ owner_of sched.old`
pub fn cubejobs_sched_try_forecast(sched: &mut Handle, ticket: u64) -> SchedForecast {
    if !sched.is_open() {
        return no_forecast(NOT_OPEN);
    }
    let (answer, receipt) = forecast(threads_at(sched.at.get_mut()), ticket);
    sched.keep(receipt);
    answer
}

/// Answers how much the scheduler does.
///
/// # Clauses of the proved source
///
/// - ensures not_open: `owner_of sched.old ≡ None → result ≡ counts_refusal NOT_OPEN`
/// - ensures only: `result.code ≡ NOT_OPEN → owner_of sched.old ≡ None`
/// - ensures made: `IsSome (owner_of sched.old) → MadeAt sched.new (counts_refusal NOT_NOW) (λ answer. Untimed (Reads (HasCounts answer))) counts_answer result`
/// - ensures kept: `owner_of sched.new ≡ owner_of sched.old`
pub fn cubejobs_sched_try_counts(sched: &mut Handle) -> CountsAnswer {
    if !sched.is_open() {
        return no_counts(NOT_OPEN);
    }
    let (answer, receipt) = counts(threads_at(sched.at.get_mut()));
    sched.keep(receipt);
    answer
}
