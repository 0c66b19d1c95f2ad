// Made from crates/cubejobs_lanes/src/sleeper_side.rt by checks/lib/erase.py. Change that file.
//! A worker of lanes that lies down while there is no job, with its share of the lanes.

use crate::source::cubejobs_lanes::common::Common;
use crate::source::cubejobs_lanes::sides::WorkerSide;
use crate::source::lanes::{Finder, LaneJob};
use crate::source::kit::sync::Arc;

/// A job that a worker took, and that no call has returned yet.
#[derive(Clone, Copy, Debug, PartialEq, Eq)]
pub(crate) struct KeptJob {
    /// The lane of the job.
    pub(crate) lane: u32,
    /// The job.
    pub(crate) job: LaneJob,
    /// The number of jobs that were left in the lane.
    pub(crate) left: u64,
}

/// A worker that is not idle: it lies down, or is about to get up. It keeps a job while it has
/// still to wake another worker.
pub(crate) struct SleeperSide {
    pub(crate) common: Arc<Common>,
    pub(crate) finder: Finder,
    pub(crate) kept: Option<KeptJob>,
}

impl WorkerSide {
    // Returns the worker as one that may lie down. It is idle.
    pub(crate) fn into_sleeper(self) -> SleeperSide {
        let (common, worker) = self.into_parts();
        let finder = match worker.into_finder() {
            Ok(finder) => finder,
            Err(_worker) => unreachable!(),
        };
        SleeperSide {
            common,
            finder,
            kept: None,
        }
    }
}

impl SleeperSide {
    // Returns the number of lanes.
    pub(crate) fn lane_count(&self) -> u32 {
        self.common.sizes.lanes
    }

    // Returns the worker, which is idle and keeps no job.
    pub(crate) fn into_worker(self) -> WorkerSide {
        let SleeperSide {
            common,
            finder,
            kept: _,
        } = self;
        let worker = match finder.into_worker() {
            Ok(worker) => worker,
            Err(_finder) => unreachable!(),
        };
        WorkerSide { common, worker }
    }

    // Returns the worker's number.
    pub(crate) fn number(&self) -> u32 {
        self.finder.number()
    }

    // Returns the finder, and drops the share of the lanes.
    fn into_finder(self) -> Finder {
        let SleeperSide {
            common: _,
            finder,
            kept: _,
        } = self;
        finder
    }
}
