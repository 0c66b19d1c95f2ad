// Made from crates/sched_blocks/src/lib.rt by checks/lib/erase.py. Change that file.
//! The blocks of a scheduler: which are in use, until when, and which one comes next.
//!
//! This is the machine's part of a state of `sched_law`. It has the blocks that jobs hold or that
//! are out of service, and the ends of the jobs that run. Each call says what it does to each state
//! that the blocks show.
//!
//! Two trees have an entry for each node of the machine. One has the latest end at or below the
//! node, and one how many processors are busy there.

pub(crate) mod blocks;
pub(crate) mod busy;
pub(crate) mod ends;
pub(crate) mod law;
pub(crate) mod nodes;
pub(crate) mod tree_law;
pub(crate) mod trees;

pub use blocks::Blocks;
pub use crate::source::cube_shape::{MAX_BITMAP_DIM, Region};
pub use law::other_calls_change_no_block;
pub use tree_law::{
    blocks_in_use_are_apart, ends_follow_the_state, states_decide_the_trees,
    trees_serve_the_policy, uses_follow_the_state,
};
