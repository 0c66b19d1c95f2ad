// Made from crates/cubejobs_sched/src/leave_exports.rt by checks/lib/erase.py. Change that file.
//! The functions of the library that end the jobs of workers, under the names that C declares.

use crate::source::cubejobs_sched::answer::SchedAnswer;
use crate::source::cubejobs_sched::answers::refused;
use crate::source::cubejobs_sched::codes::{NOT_OPEN, OUT_OF_RANGE};
use crate::source::cubejobs_sched::handle::Handle;
use crate::source::cubejobs_sched::leaving::{done, lose, rise};
use crate::source::cubejobs_sched::places::threads_at;
use crate::source::sched_board::NEVER;

/// Ends the job of a worker, and starts jobs for workers that wait. `now` is the time, in the
/// caller's unit.
///
/// `WRONG_STATE`: it has no job that its thread has seen.
///
/// # Clauses of the proved source
///
/// - ensures not_open: `owner_of sched.old ≡ None → result ≡ refusal NOT_OPEN`
/// - ensures only: `result.code ≡ NOT_OPEN → owner_of sched.old ≡ None`
/// - ensures out_of_range: `IsSome (owner_of sched.old) → now ≡ LAST → result ≡ refusal OUT_OF_RANGE`
/// - ensures made: `IsSome (owner_of sched.old) → now ≢ LAST → MayMake sched.new (λ answer. Timed now (λ time. IsDoneAnswer time worker answer)) end_answer result`
/// - ensures kept: `owner_of sched.new ≡ owner_of sched.old`
pub fn cubejobs_sched_try_done(sched: &mut Handle, worker: u32, now: u64) -> SchedAnswer {
    if !sched.is_open() {
        return refused(NOT_OPEN);
    }
    if now == NEVER {
        return refused(OUT_OF_RANGE);
    }
    let (answer, receipt) = done(threads_at(sched.at.get_mut()), worker, now);
    sched.keep(receipt);
    answer
}

/// Lets the thread be its worker no longer. `now`
/// is the time, in the caller's unit.
///
/// `WRONG_STATE`: no thread is this worker, or it got a job that its thread has not seen.
///
/// # Clauses of the proved source
///
/// - ensures not_open: `owner_of sched.old ≡ None → result ≡ refusal NOT_OPEN`
/// - ensures only: `result.code ≡ NOT_OPEN → owner_of sched.old ≡ None`
/// - ensures out_of_range: `IsSome (owner_of sched.old) → now ≡ LAST → result ≡ refusal OUT_OF_RANGE`
/// - ensures made: `IsSome (owner_of sched.old) → now ≢ LAST → MayMake sched.new (λ answer. Timed now (λ time. IsRiseAnswer time worker answer)) end_answer result`
/// - ensures kept: `owner_of sched.new ≡ owner_of sched.old`
pub fn cubejobs_sched_try_leave(sched: &mut Handle, worker: u32, now: u64) -> SchedAnswer {
    if !sched.is_open() {
        return refused(NOT_OPEN);
    }
    if now == NEVER {
        return refused(OUT_OF_RANGE);
    }
    let (answer, receipt) = rise(threads_at(sched.at.get_mut()), worker, now);
    sched.keep(receipt);
    answer
}

/// Lets no thread be a worker whose thread is gone. Its job ends, also one that it has not seen.
/// `now` is the time, in the caller's unit.
///
/// `WRONG_STATE`: no thread is this worker.
///
/// # Clauses of the proved source
///
/// - ensures not_open: `owner_of sched.old ≡ None → result ≡ refusal NOT_OPEN`
/// - ensures only: `result.code ≡ NOT_OPEN → owner_of sched.old ≡ None`
/// - ensures out_of_range: `IsSome (owner_of sched.old) → now ≡ LAST → result ≡ refusal OUT_OF_RANGE`
/// - ensures made: `IsSome (owner_of sched.old) → now ≢ LAST → MayMake sched.new (λ answer. Timed now (λ time. IsLoseAnswer time worker answer)) end_answer result`
/// - ensures kept: `owner_of sched.new ≡ owner_of sched.old`
pub fn cubejobs_sched_try_lost(sched: &mut Handle, worker: u32, now: u64) -> SchedAnswer {
    if !sched.is_open() {
        return refused(NOT_OPEN);
    }
    if now == NEVER {
        return refused(OUT_OF_RANGE);
    }
    let (answer, receipt) = lose(threads_at(sched.at.get_mut()), worker, now);
    sched.keep(receipt);
    answer
}
