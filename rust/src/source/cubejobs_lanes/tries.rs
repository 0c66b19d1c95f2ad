// Made from crates/cubejobs_lanes/src/tries.rt by checks/lib/erase.py. Change that file.
//! How long a call goes on.

/// The number of rounds, and of lost exchanges in each, that a call makes before its caller is to
/// call again.
pub const TRIES: u32 = 64;
