// Made from crates/cubejobs_plan/src/job_exports.rt by checks/lib/erase.py. Change that file.
//! The function of the library that submits a job, under the name that C declares.

use crate::source::cubejobs_plan::answer::PlanJob;
use crate::source::cubejobs_plan::answers::refused;
use crate::source::cubejobs_plan::codes::{DONE, FULL, NOT_OPEN, OUT_OF_RANGE};
use crate::source::cubejobs_plan::handle::Handle;
use crate::source::cubejobs_plan::submitting::submit;
use crate::source::sched_core::JobRequest;

/// Submits a job, which waits from now on.
///
/// # Clauses of the proved source
///
/// - ensures not_open: `core_of plan.old ≡ None → result.code ≡ NOT_OPEN`
/// - ensures out_of_range: `OnCore (λ core. IsAskable (dim_of core) request → ⊥) (core_of plan.old) → result.code ≡ OUT_OF_RANGE`
/// - ensures tried: `OnCore (λ core. IsAskable (dim_of core) request) (core_of plan.old) → (result.code ≡ DONE) ⊎ (result.code ≡ FULL)`
/// - ensures full: `result.code ≡ FULL → OnCore IsFull (core_of plan.old)`
/// - ensures refused: `OnCore (IsRefused request) (core_of plan.old) → result.code ≡ FULL`
/// - ensures submitted: `result.code ≡ DONE → OnCores (IsSubmitted request result) (core_of plan.old) (core_of plan.new)`
/// - ensures nothing: `result.code ≢ DONE → SaysNothing result`
/// - ensures unchanged: `result.code ≢ DONE → plan.new ≡ plan.old`
pub fn cubejobs_plan_submit(plan: &mut Handle, request: JobRequest) -> PlanJob {
    if !plan.is_open() {
        return refused(NOT_OPEN);
    }
    submit(&mut plan.at.get_mut().scheduler, request)
}
