// Made from crates/sched_jobs/src/law.rt by checks/lib/erase.py. Change that file.
//! What holds of tickets.

/// Says that different slots, or generations of a slot, have different tickets. So a ticket names
/// one job for ever.
///
/// # Clauses of the proved source
///
/// - ensures: `(a b u v : ℕ) → u < SLOTS → v < SLOTS → a * SLOTS + u ≡ b * SLOTS + v → (a ≡ b) × (u ≡ v)`
pub fn tickets_differ() {}
