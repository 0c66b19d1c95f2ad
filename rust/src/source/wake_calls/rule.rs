// Made from crates/wake_calls/src/rule.rt by checks/lib/erase.py. Change that file.

use crate::source::wake_calls::deed::WakeDeed;
use crate::source::kit::atomic_table::TableRule;
use crate::source::wake_pool::WakePhase;

/// What a thread's seat knows of it.
#[must_use = "the proved source spends each value of this type by a call"]
pub struct ThreadRecord {
    /// Its number. Threads below `workers` may sleep.
    pub number: u32,
    /// What it does at the moment.
    pub phase: WakePhase,
    /// The number of workers.
    pub workers: u32,
    /// The number of lanes.
    pub lanes: u32,
}

/// The rule of a table whose first words are those of sleepers, tokens and mailboxes. `V` is what a
/// seat knows, and `K` is the key that the table gets when it is made.
pub trait WakeRule<V, K>: TableRule<(), V, K> {}
