// Made from crates/cubejobs_lanes/src/state.rt by checks/lib/erase.py. Change that file.
//! The content of a handle.

use crate::source::cubejobs_lanes::left::Left;
use crate::source::cubejobs_lanes::owner::Owner;
use crate::source::cubejobs_lanes::sides::{LaneSide, WorkerSide};
use crate::source::cubejobs_lanes::sleeper_side::SleeperSide;

/// The content of a handle.
pub(crate) enum State {
    /// Lanes.
    Owner(Owner),
    /// A producer.
    Lane(LaneSide),
    /// A worker that is awake.
    Worker(WorkerSide),
    /// A worker that lies down.
    Sleeper(SleeperSide),
    /// The jobs that are left after the end of lanes.
    Left(Left),
    /// None: a call has borrowed the content.
    Away,
}
