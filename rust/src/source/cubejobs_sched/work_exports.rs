// Made from crates/cubejobs_sched/src/work_exports.rt by checks/lib/erase.py. Change that file.
//! The functions of the library that make threads workers and give them jobs,
//! under the names that C declares.

use crate::source::cubejobs_sched::answer::SchedAnswer;
use crate::source::cubejobs_sched::answers::refused;
use crate::source::cubejobs_sched::codes::{NOT_OPEN, OUT_OF_RANGE};
use crate::source::cubejobs_sched::handle::Handle;
use crate::source::cubejobs_sched::places::threads_at;
use crate::source::cubejobs_sched::working::{give_up, next, sit};
use crate::source::sched_board::NEVER;

/// Makes the thread a worker that no other thread is. Answers the number of the worker.
///
/// `FULL`: each worker is a thread.
///
/// # Clauses of the proved source
///
/// - ensures not_open: `owner_of sched.old ≡ None → result ≡ refusal NOT_OPEN`
/// - ensures only: `result.code ≡ NOT_OPEN → owner_of sched.old ≡ None`
/// - ensures made: `IsSome (owner_of sched.old) → MayMake sched.new (λ answer. Untimed (IsSitAnswer answer)) sit_answer result`
/// - ensures kept: `owner_of sched.new ≡ owner_of sched.old`
pub fn cubejobs_sched_try_worker(sched: &mut Handle) -> SchedAnswer {
    if !sched.is_open() {
        return refused(NOT_OPEN);
    }
    let (answer, receipt) = sit(threads_at(sched.at.get_mut()));
    sched.keep(receipt);
    answer
}

/// Ends the job of a worker, if it has one. Answers its next job, or lets it wait for one. `now` is
/// the time, in the caller's unit.
///
/// `NO_JOB`: it waits. `CLOSED`: it waits, and no job will start any more. `WRONG_STATE`: no thread
/// is this worker.
///
/// # Clauses of the proved source
///
/// - ensures not_open: `owner_of sched.old ≡ None → result ≡ refusal NOT_OPEN`
/// - ensures only: `result.code ≡ NOT_OPEN → owner_of sched.old ≡ None`
/// - ensures out_of_range: `IsSome (owner_of sched.old) → now ≡ LAST → result ≡ refusal OUT_OF_RANGE`
/// - ensures made: `IsSome (owner_of sched.old) → now ≢ LAST → MayMake sched.new (λ answer. Timed now (λ time. IsNextAnswer time worker answer)) next_answer result`
/// - ensures kept: `owner_of sched.new ≡ owner_of sched.old`
pub fn cubejobs_sched_try_next(sched: &mut Handle, worker: u32, now: u64) -> SchedAnswer {
    if !sched.is_open() {
        return refused(NOT_OPEN);
    }
    if now == NEVER {
        return refused(OUT_OF_RANGE);
    }
    let (answer, receipt) = next(threads_at(sched.at.get_mut()), worker, now);
    sched.keep(receipt);
    answer
}

/// Lets a worker wait no longer. Answers the job that it got meanwhile, if it got one. `now` is the
/// time, in the caller's unit.
///
/// `NO_JOB`: it got none, and waits no longer. `WRONG_STATE`: it did not wait.
///
/// # Clauses of the proved source
///
/// - ensures not_open: `owner_of sched.old ≡ None → result ≡ refusal NOT_OPEN`
/// - ensures only: `result.code ≡ NOT_OPEN → owner_of sched.old ≡ None`
/// - ensures out_of_range: `IsSome (owner_of sched.old) → now ≡ LAST → result ≡ refusal OUT_OF_RANGE`
/// - ensures made: `IsSome (owner_of sched.old) → now ≢ LAST → MayMake sched.new (λ answer. Timed now (λ time. IsGiveUpAnswer time worker answer)) give_up_answer result`
/// - ensures kept: `owner_of sched.new ≡ owner_of sched.old`
pub fn cubejobs_sched_try_give_up(
    sched: &mut Handle,
    worker: u32,
    now: u64,
) -> SchedAnswer {
    if !sched.is_open() {
        return refused(NOT_OPEN);
    }
    if now == NEVER {
        return refused(OUT_OF_RANGE);
    }
    let (answer, receipt) = give_up(threads_at(sched.at.get_mut()), worker, now);
    sched.keep(receipt);
    answer
}
