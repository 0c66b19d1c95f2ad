// Made from crates/cubejobs_rounds/src/lib.rt by checks/lib/erase.py. Change that file.
//! The messages of collectives for callers in C and Rust, as a static library that allocates no
//! memory. It has their count, each message by its number, and the partners of a rank in a round.
//!
//! A bad argument gives a code. `include/cubejobs_rounds.h` declares these functions for C and C++,
//! and the package `rust/` wraps them for Rust.

pub(crate) mod answers;
pub(crate) mod codes;
pub(crate) mod exports;
pub(crate) mod shapes;
pub(crate) mod version;

pub use answers::{CountAnswer, MessageAnswer, NO_RANK, StepAnswer};
pub use codes::{BAD_DIMENSION, BAD_NUMBER, BAD_RANK, BAD_ROOT, BAD_ROUND, BAD_SHAPE, DONE};
pub use exports::{cubejobs_message, cubejobs_message_count, cubejobs_step};
pub use shapes::{ALLREDUCE, BROADCAST, REDUCE, SCAN, SHAPES};
pub use version::cubejobs_rounds_version_number;
