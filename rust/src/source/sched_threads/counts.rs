// Made from crates/sched_threads/src/counts.rt by checks/lib/erase.py. Change that file.
//! How much a scheduler does.

/// How much a scheduler does.
#[derive(Clone, Copy, Debug, PartialEq, Eq, Hash)]
pub struct SchedCounts {
    /// How many jobs wait.
    pub waiting: u64,
    /// How many jobs run.
    pub running: u64,
    /// How many processors the running jobs use together. Their blocks may have more.
    pub asked: u64,
    /// How many processors jobs hold.
    pub held: u32,
    /// How many processors are out of service.
    pub occupied: u32,
}
