// Made from crates/cubejobs_plan/src/look_exports.rt by checks/lib/erase.py. Change that file.
//! The functions of the library that look at jobs and count, under the names that C declares.

use crate::source::cubejobs_plan::answer::{PlanCounts, PlanJob};
use crate::source::cubejobs_plan::answers::refused;
use crate::source::cubejobs_plan::codes::{DONE, NO_JOB, NOT_OPEN};
use crate::source::cubejobs_plan::counting::{counts, uncounted};
use crate::source::cubejobs_plan::handle::Handle;
use crate::source::cubejobs_plan::looking::{after, forecast};

/// Says where a job is.
///
/// # Clauses of the proved source
///
/// - ensures not_open: `core_of plan.old ≡ None → result.code ≡ NOT_OPEN`
/// - ensures codes: `IsSome (core_of plan.old) → (result.code ≡ DONE) ⊎ (result.code ≡ NO_JOB)`
/// - ensures no_job: `result.code ≡ NO_JOB → OnCore (HasNoJobWith ticket) (core_of plan.old)`
/// - ensures found: `result.code ≡ DONE → OnCore (IsFound ticket result) (core_of plan.old)`
/// - ensures nothing: `result.code ≢ DONE → SaysNothing result`
/// - ensures unchanged: `plan.new ≡ plan.old`
pub fn cubejobs_plan_forecast(plan: &mut Handle, ticket: u64) -> PlanJob {
    if !plan.is_open() {
        return refused(NOT_OPEN);
    }
    forecast(&plan.at.get_mut().scheduler, ticket)
}

/// Returns the first job in a slot after that of a ticket.
///
/// # Clauses of the proved source
///
/// - ensures not_open: `core_of plan.old ≡ None → result.code ≡ NOT_OPEN`
/// - ensures codes: `IsSome (core_of plan.old) → (result.code ≡ DONE) ⊎ (result.code ≡ NO_JOB)`
/// - ensures no_job: `result.code ≡ NO_JOB → OnCore (HasNoneAfter ticket) (core_of plan.old)`
/// - ensures next: `result.code ≡ DONE → OnCore (IsAfter ticket result) (core_of plan.old)`
/// - ensures nothing: `result.code ≢ DONE → SaysNothing result`
/// - ensures unchanged: `plan.new ≡ plan.old`
pub fn cubejobs_plan_after(plan: &mut Handle, ticket: u64) -> PlanJob {
    if !plan.is_open() {
        return refused(NOT_OPEN);
    }
    after(&plan.at.get_mut().scheduler, ticket)
}

/// Counts jobs and processors.
///
/// # Clauses of the proved source
///
/// - ensures not_open: `core_of plan.old ≡ None → result.code ≡ NOT_OPEN`
/// - ensures done: `IsSome (core_of plan.old) → result.code ≡ DONE`
/// - ensures counted: `result.code ≡ DONE → OnCore (HasCounts result) (core_of plan.old)`
/// - ensures nothing: `result.code ≢ DONE → CountsNothing result`
/// - ensures unchanged: `plan.new ≡ plan.old`
pub fn cubejobs_plan_counts(plan: &mut Handle) -> PlanCounts {
    if !plan.is_open() {
        return uncounted(NOT_OPEN);
    }
    counts(&plan.at.get_mut().scheduler)
}
