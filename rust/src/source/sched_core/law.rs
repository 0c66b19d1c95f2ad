// Made from crates/sched_core/src/law.rt by checks/lib/erase.py. Change that file.
//! What holds of announcements.

/// Says that `next`, called after `peek` at the same time, starts the job that `peek` returned, and
/// leaves the announced state. So this job gets the announced block.
///
/// # Clauses of the proved source
///
/// - ensures: `(t : ℕ) (w v u after : Sched) (core : CoreData) (answer : Option AssignedData) (started : Option ℕ) → IsAnnounced (at t w) v u core answer → Decides (at t v) started after → (started ≡ answer_of core (slot_of answer)) × (after ≡ u)`
pub fn announced_jobs_start() {}
