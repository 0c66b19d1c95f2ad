// Made from crates/cubejobs_sched/src/block_exports.rt by checks/lib/erase.py. Change that file.
//! The functions of the library that take blocks out of service and put them back,
//! under the names that C declares.

use crate::source::cubejobs_sched::answer::SchedAnswer;
use crate::source::cubejobs_sched::answers::refused;
use crate::source::cubejobs_sched::codes::{NOT_OPEN, OUT_OF_RANGE};
use crate::source::cubejobs_sched::handle::Handle;
use crate::source::cubejobs_sched::places::threads_at;
use crate::source::cubejobs_sched::serving::{occupy, vacate};
use crate::source::sched_board::NEVER;

/// Takes the block of dimension `dim` that begins at processor `base` out of service. `now` is the
/// time, in the caller's unit.
///
/// `OUT_OF_RANGE`: there is no such block. `WRONG_STATE`: a part of it is held or out of service.
///
/// # Clauses of the proved source
///
/// - ensures not_open: `owner_of sched.old ≡ None → result ≡ refusal NOT_OPEN`
/// - ensures only: `result.code ≡ NOT_OPEN → owner_of sched.old ≡ None`
/// - ensures out_of_range: `IsSome (owner_of sched.old) → now ≡ LAST → result ≡ refusal OUT_OF_RANGE`
/// - ensures made: `IsSome (owner_of sched.old) → now ≢ LAST → MayMake sched.new (λ answer. Timed now (λ time. OnBoards (IsTakeOutAnswer time base dim answer))) block_answer result`
/// - ensures kept: `owner_of sched.new ≡ owner_of sched.old`
pub fn cubejobs_sched_try_occupy(
    sched: &mut Handle,
    base: u64,
    dim: u32,
    now: u64,
) -> SchedAnswer {
    if !sched.is_open() {
        return refused(NOT_OPEN);
    }
    if now == NEVER {
        return refused(OUT_OF_RANGE);
    }
    let (answer, receipt) = occupy(threads_at(sched.at.get_mut()), base, dim, now);
    sched.keep(receipt);
    answer
}

/// Puts a block back into service, and starts jobs for workers that wait. `now` is the time, in the
/// caller's unit.
///
/// `OUT_OF_RANGE`: there is no such block. `WRONG_STATE`: it is not out of service as one block.
///
/// # Clauses of the proved source
///
/// - ensures not_open: `owner_of sched.old ≡ None → result ≡ refusal NOT_OPEN`
/// - ensures only: `result.code ≡ NOT_OPEN → owner_of sched.old ≡ None`
/// - ensures out_of_range: `IsSome (owner_of sched.old) → now ≡ LAST → result ≡ refusal OUT_OF_RANGE`
/// - ensures made: `IsSome (owner_of sched.old) → now ≢ LAST → MayMake sched.new (λ answer. Timed now (λ time. OnBoards (IsPutBackAnswer time base dim answer))) block_answer result`
/// - ensures kept: `owner_of sched.new ≡ owner_of sched.old`
pub fn cubejobs_sched_try_vacate(
    sched: &mut Handle,
    base: u64,
    dim: u32,
    now: u64,
) -> SchedAnswer {
    if !sched.is_open() {
        return refused(NOT_OPEN);
    }
    if now == NEVER {
        return refused(OUT_OF_RANGE);
    }
    let (answer, receipt) = vacate(threads_at(sched.at.get_mut()), base, dim, now);
    sched.keep(receipt);
    answer
}
