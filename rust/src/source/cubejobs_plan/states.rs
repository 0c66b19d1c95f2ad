// Made from crates/cubejobs_plan/src/states.rt by checks/lib/erase.py. Change that file.
//! Where a job is, as an answer says it.

/// The job waits, and no block is reserved for it.
pub const WAITS: u32 = 1;

/// The job waits, and a block is reserved for it.
pub const RESERVED: u32 = 2;

/// The job runs.
pub const RUNS: u32 = 3;
