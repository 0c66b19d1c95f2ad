// Made from crates/sched_board/src/sizes.rt by checks/lib/erase.py. Change that file.
//! How large a scheduler is.

/// How large a scheduler for threads is.
#[derive(Clone, Copy, Debug, PartialEq, Eq, Hash)]
pub struct ThreadSizes {
    /// The dimension of the machine.
    pub dim: u32,
    /// How many jobs it may have that are not over.
    pub jobs: usize,
    /// How many times the machine passes a job before a block without a known promise is reserved
    /// for it.
    pub patience: u32,
    /// How many workers it has.
    pub workers: u32,
}
