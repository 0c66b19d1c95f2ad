// Made from crates/cubejobs_plan/src/end_exports.rt by checks/lib/erase.py. Change that file.
//! The functions of the library that cancel and finish a job, under the names that C declares.

use crate::source::cubejobs_plan::answer::PlanJob;
use crate::source::cubejobs_plan::answers::refused;
use crate::source::cubejobs_plan::codes::{DONE, NO_JOB, NOT_OPEN, WRONG_STATE};
use crate::source::cubejobs_plan::ending::{cancel, finish};
use crate::source::cubejobs_plan::handle::Handle;

/// Takes a job back that waits.
///
/// # Clauses of the proved source
///
/// - ensures not_open: `core_of plan.old ≡ None → result.code ≡ NOT_OPEN`
/// - ensures codes: `IsSome (core_of plan.old) → (result.code ≡ DONE) ⊎ (result.code ≡ NO_JOB) ⊎ (result.code ≡ WRONG_STATE)`
/// - ensures no_job: `result.code ≡ NO_JOB → OnCore (HasNoJobWith ticket) (core_of plan.old)`
/// - ensures wrong_state: `result.code ≡ WRONG_STATE → OnCore (HasRunningWith ticket) (core_of plan.old)`
/// - ensures cancelled: `result.code ≡ DONE → OnCores (IsCancelled ticket result) (core_of plan.old) (core_of plan.new)`
/// - ensures nothing: `result.code ≢ DONE → SaysNothing result`
/// - ensures unchanged: `result.code ≢ DONE → plan.new ≡ plan.old`
pub fn cubejobs_plan_cancel(plan: &mut Handle, ticket: u64) -> PlanJob {
    if !plan.is_open() {
        return refused(NOT_OPEN);
    }
    cancel(&mut plan.at.get_mut().scheduler, ticket)
}

/// Says that a job that ran has ended.
///
/// # Clauses of the proved source
///
/// - ensures not_open: `core_of plan.old ≡ None → result.code ≡ NOT_OPEN`
/// - ensures codes: `IsSome (core_of plan.old) → (result.code ≡ DONE) ⊎ (result.code ≡ NO_JOB) ⊎ (result.code ≡ WRONG_STATE)`
/// - ensures no_job: `result.code ≡ NO_JOB → OnCore (HasNoJobWith ticket) (core_of plan.old)`
/// - ensures wrong_state: `result.code ≡ WRONG_STATE → OnCore (HasWaitingWith ticket) (core_of plan.old)`
/// - ensures finished: `result.code ≡ DONE → OnCores (IsFinished ticket result) (core_of plan.old) (core_of plan.new)`
/// - ensures nothing: `result.code ≢ DONE → SaysNothing result`
/// - ensures unchanged: `result.code ≢ DONE → plan.new ≡ plan.old`
pub fn cubejobs_plan_finish(plan: &mut Handle, ticket: u64) -> PlanJob {
    if !plan.is_open() {
        return refused(NOT_OPEN);
    }
    finish(&mut plan.at.get_mut().scheduler, ticket)
}
