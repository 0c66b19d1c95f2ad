// Made from crates/cubejobs_plan/src/law.rt by checks/lib/erase.py. Change that file.
//! What holds of tickets.

/// Says that the job with a ticket does not both wait and run. So a ticket determines the code of
/// each call about it.
///
/// # Clauses of the proved source
///
/// - ensures: `(w : Sched) (core : CoreData) (ticket : ℕ) → ShowsCore w core → HasWaitingWith ticket core → HasRunningWith ticket core → ⊥`
pub fn jobs_wait_or_run() {}
