//! The calls of rounds, over the erased sources. They ask nothing.

use crate::source::cubejobs_rounds as source;

pub use crate::source::cubejobs_rounds::{CountAnswer, MessageAnswer, StepAnswer};
pub use crate::source::cubejobs_rounds::{BAD_DIMENSION, BAD_ROOT, DONE, NO_RANK};

pub const MAX_DIM: u32 = crate::source::collectives::DIM_LIMIT - 1;

pub fn count(shape: u32, k: u32) -> CountAnswer {
    source::cubejobs_message_count(shape, k)
}

pub fn message(shape: u32, k: u32, root: u64, i: u64) -> MessageAnswer {
    source::cubejobs_message(shape, k, root, i)
}

pub fn step(shape: u32, k: u32, root: u64, rank: u64, round: u32) -> StepAnswer {
    source::cubejobs_step(shape, k, root, rank, round)
}
