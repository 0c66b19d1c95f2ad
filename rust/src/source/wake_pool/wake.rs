// Made from crates/wake_pool/src/wake.rt by checks/lib/erase.py. Change that file.

use crate::source::wake_pool::act::WakeAct;

/// Holds after every list of acts, the newest first: no job and no call waits while all threads
/// that could serve it sleep (`IsServed`). The number of workers, lanes and words is any, and so is
/// the word of each worker's bit.
///
/// # Clauses of the proved source
///
/// - ensures: `(workers lanes words : ℕ) (word : ℕ → ℕ) → ((t : ℕ) → t < workers → word t < words) → (acts : List WakeAct) → IsServed (apply_all acts (initial workers lanes words word))`
pub fn every_schedule_is_served() {}
