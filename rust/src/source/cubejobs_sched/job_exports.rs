// Made from crates/cubejobs_sched/src/job_exports.rt by checks/lib/erase.py. Change that file.
//! The functions of the library that submit and cancel a job, under the names that C declares.

use crate::source::cubejobs_sched::answer::SchedAnswer;
use crate::source::cubejobs_sched::answers::refused;
use crate::source::cubejobs_sched::codes::{NOT_OPEN, OUT_OF_RANGE};
use crate::source::cubejobs_sched::handle::Handle;
use crate::source::cubejobs_sched::jobs::{cancel, submit};
use crate::source::cubejobs_sched::places::threads_at;
use crate::source::sched_board::NEVER;
use crate::source::sched_threads::JobRequest;

/// Submits a job, and starts jobs for workers that wait. Answers its ticket. `now` is the time, in
/// the caller's unit.
///
/// `OUT_OF_RANGE`: the machine cannot have such a job. `CLOSED`: no job may come any more. `FULL`:
/// there is no place for it.
///
/// # Clauses of the proved source
///
/// - ensures not_open: `owner_of sched.old ≡ None → result ≡ refusal NOT_OPEN`
/// - ensures only: `result.code ≡ NOT_OPEN → owner_of sched.old ≡ None`
/// - ensures out_of_range: `IsSome (owner_of sched.old) → now ≡ LAST → result ≡ refusal OUT_OF_RANGE`
/// - ensures made: `IsSome (owner_of sched.old) → now ≢ LAST → MayMake sched.new (λ answer. Timed now (λ time. OnBoards (IsSubmitAnswer time request answer))) submit_answer result`
/// - ensures kept: `owner_of sched.new ≡ owner_of sched.old`
pub fn cubejobs_sched_try_submit(
    sched: &mut Handle,
    request: JobRequest,
    now: u64,
) -> SchedAnswer {
    if !sched.is_open() {
        return refused(NOT_OPEN);
    }
    if now == NEVER {
        return refused(OUT_OF_RANGE);
    }
    let (answer, receipt) = submit(threads_at(sched.at.get_mut()), request, now);
    sched.keep(receipt);
    answer
}

/// Cancels a job that waits, and starts jobs for workers that wait. Answers its payload. `now` is
/// the time, in the caller's unit.
///
/// `NO_JOB`: the ticket is of no job, or of one that is over. `WRONG_STATE`: the job runs.
///
/// # Clauses of the proved source
///
/// - ensures not_open: `owner_of sched.old ≡ None → result ≡ refusal NOT_OPEN`
/// - ensures only: `result.code ≡ NOT_OPEN → owner_of sched.old ≡ None`
/// - ensures out_of_range: `IsSome (owner_of sched.old) → now ≡ LAST → result ≡ refusal OUT_OF_RANGE`
/// - ensures made: `IsSome (owner_of sched.old) → now ≢ LAST → MayMake sched.new (λ answer. Timed now (λ time. OnBoards (IsCancelAnswer time ticket answer))) (cancel_answer ticket) result`
/// - ensures kept: `owner_of sched.new ≡ owner_of sched.old`
pub fn cubejobs_sched_try_cancel(
    sched: &mut Handle,
    ticket: u64,
    now: u64,
) -> SchedAnswer {
    if !sched.is_open() {
        return refused(NOT_OPEN);
    }
    if now == NEVER {
        return refused(OUT_OF_RANGE);
    }
    let (answer, receipt) = cancel(threads_at(sched.at.get_mut()), ticket, now);
    sched.keep(receipt);
    answer
}
