// Made from crates/wake_calls/src/lib.rt by checks/lib/erase.py. Change that file.
//! The calls by which threads sleep, wake and call one another, each of one atomic step.
//!
//! They work on the first words of a table: words of sleepers, tokens and mailboxes. The words
//! above them are the table's own affair, and so is when a lane has a job. A table whose rule is a
//! `WakeRule` has a world of `wake_pool`, so its law holds between any two steps.

pub(crate) mod deed;
pub(crate) mod plays;
pub(crate) mod rule;
pub(crate) mod sleeping;
pub(crate) mod steps;
pub(crate) mod waking;

pub use deed::WakeDeed;
pub use rule::{ThreadRecord, WakeRule};
pub use sleeping::{Asleep, Back, before_park, try_back};
pub use steps::{
    Noticed, call, check, claim, come_back, find_call, give, leave, lie_down, notice, read_mail,
    rest, ring, rise, stay, take_call, wait, wake,
};
pub use waking::{Wake, wake_check};
