// Made from crates/cubejobs_sched/src/close_exports.rt by checks/lib/erase.py. Change that file.
//! The functions of the library that close a scheduler, under the names that C declares.

use crate::source::cubejobs_sched::answer::SchedAnswer;
use crate::source::cubejobs_sched::answers::refused;
use crate::source::cubejobs_sched::closing::{close, rest, settle};
use crate::source::cubejobs_sched::codes::{NOT_OPEN, OUT_OF_RANGE};
use crate::source::cubejobs_sched::handle::Handle;
use crate::source::cubejobs_sched::places::threads_at;
use crate::source::sched_board::NEVER;

/// Lets no job come any more. In mode 0 those that wait still run, and in mode 1 they do not. `now`
/// is the time, in the caller's unit.
///
/// `OUT_OF_RANGE`: there is no such mode. `CLOSED`: no job may come already.
///
/// # Clauses of the proved source
///
/// - ensures not_open: `owner_of sched.old ≡ None → result ≡ refusal NOT_OPEN`
/// - ensures only: `result.code ≡ NOT_OPEN → owner_of sched.old ≡ None`
/// - ensures out_of_range: `IsSome (owner_of sched.old) → now ≡ LAST → result ≡ refusal OUT_OF_RANGE`
/// - ensures bad_mode: `IsSome (owner_of sched.old) → now ≢ LAST → 1 < mode → result ≡ refusal OUT_OF_RANGE`
/// - ensures made: `IsSome (owner_of sched.old) → now ≢ LAST → mode ≤ 1 → MayMake sched.new (λ answer. Timed now (λ time. OnBoards (IsCloseAnswer time (mode == 0) answer))) close_answer result`
/// - ensures kept: `owner_of sched.new ≡ owner_of sched.old`
pub fn cubejobs_sched_try_close(sched: &mut Handle, mode: u32, now: u64) -> SchedAnswer {
    if !sched.is_open() {
        return refused(NOT_OPEN);
    }
    if now == NEVER {
        return refused(OUT_OF_RANGE);
    }
    if mode > 1 {
        return refused(OUT_OF_RANGE);
    }
    let (answer, receipt) = close(threads_at(sched.at.get_mut()), mode == 0, now);
    sched.keep(receipt);
    answer
}

/// Gives back the first waiting job in slots from `after` on. Answers its slot as `worker`.
///
/// `NO_JOB`: none waits there. `WRONG_STATE`: jobs may still come.
///
/// # Clauses of the proved source
///
/// - ensures not_open: `owner_of sched.old ≡ None → result ≡ refusal NOT_OPEN`
/// - ensures only: `result.code ≡ NOT_OPEN → owner_of sched.old ≡ None`
/// - ensures made: `IsSome (owner_of sched.old) → MayMake sched.new (λ answer. Untimed (OnBoards (IsGivenBack after answer))) rest_answer result`
/// - ensures kept: `owner_of sched.new ≡ owner_of sched.old`
pub fn cubejobs_sched_try_rest(sched: &mut Handle, after: u32) -> SchedAnswer {
    if !sched.is_open() {
        return refused(NOT_OPEN);
    }
    let (answer, receipt) = rest(threads_at(sched.at.get_mut()), after);
    sched.keep(receipt);
    answer
}

/// Starts jobs for workers that wait. `now` is the time, in the caller's unit.
///
/// # Clauses of the proved source
///
/// - ensures not_open: `owner_of sched.old ≡ None → result ≡ refusal NOT_OPEN`
/// - ensures only: `result.code ≡ NOT_OPEN → owner_of sched.old ≡ None`
/// - ensures out_of_range: `IsSome (owner_of sched.old) → now ≡ LAST → result ≡ refusal OUT_OF_RANGE`
/// - ensures made: `IsSome (owner_of sched.old) → now ≢ LAST → MayMake sched.new (λ answer. Timed now (λ time. OnBoards (IsSettled time answer))) settle_answer result`
/// - ensures kept: `owner_of sched.new ≡ owner_of sched.old`
pub fn cubejobs_sched_try_settle(sched: &mut Handle, now: u64) -> SchedAnswer {
    if !sched.is_open() {
        return refused(NOT_OPEN);
    }
    if now == NEVER {
        return refused(OUT_OF_RANGE);
    }
    let (answer, receipt) = settle(threads_at(sched.at.get_mut()), now);
    sched.keep(receipt);
    answer
}
