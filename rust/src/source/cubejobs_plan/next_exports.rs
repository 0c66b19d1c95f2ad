// Made from crates/cubejobs_plan/src/next_exports.rt by checks/lib/erase.py. Change that file.
//! The function of the library that starts a job, under the name that C declares.

use crate::source::cubejobs_plan::answer::PlanJob;
use crate::source::cubejobs_plan::answers::refused;
use crate::source::cubejobs_plan::codes::{DONE, NO_JOB, NOT_OPEN, OUT_OF_RANGE, TIME_BACK};
use crate::source::cubejobs_plan::handle::Handle;
use crate::source::cubejobs_plan::starting::next;

/// Starts one job at this time, or says that none may start.
///
/// # Clauses of the proved source
///
/// - ensures not_open: `core_of plan.old ≡ None → result.code ≡ NOT_OPEN`
/// - ensures out_of_range: `IsSome (core_of plan.old) → now ≡ LAST → result.code ≡ OUT_OF_RANGE`
/// - ensures time_back: `now < LAST → OnCore (λ core. now < time_of core) (core_of plan.old) → result.code ≡ TIME_BACK`
/// - ensures decided: `now < LAST → OnCore (λ core. time_of core ≤ now) (core_of plan.old) → (result.code ≡ DONE) ⊎ (result.code ≡ NO_JOB)`
/// - ensures started: `result.code ≡ DONE → OnCores (IsStarted now result) (core_of plan.old) (core_of plan.new)`
/// - ensures rests: `result.code ≡ NO_JOB → OnCores (IsAtRest now) (core_of plan.old) (core_of plan.new)`
/// - ensures nothing: `result.code ≢ DONE → SaysNothing result`
/// - ensures unchanged: `result.code ≢ DONE → result.code ≢ NO_JOB → plan.new ≡ plan.old`
pub fn cubejobs_plan_next(plan: &mut Handle, now: u64) -> PlanJob {
    if !plan.is_open() {
        return refused(NOT_OPEN);
    }
    next(&mut plan.at.get_mut().scheduler, now)
}
