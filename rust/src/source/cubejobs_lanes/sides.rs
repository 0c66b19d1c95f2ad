// Made from crates/cubejobs_lanes/src/sides.rt by checks/lib/erase.py. Change that file.
//! A producer and a worker, each with its share of the lanes.

use crate::source::cubejobs_lanes::common::Common;
use crate::source::cubejobs_lanes::kept::{KeptLane, KeptWorker};
use crate::source::cubejobs_lanes::returns::leave;
use crate::source::lanes::{Lane, Looked, Submitted, Taken, TakenAny, Worker};
use crate::source::kit::sync::Arc;

/// The right to submit jobs to one lane.
pub(crate) struct LaneSide {
    pub(crate) common: Arc<Common>,
    pub(crate) lane: Lane,
}

/// The right to take jobs from every lane.
pub(crate) struct WorkerSide {
    pub(crate) common: Arc<Common>,
    pub(crate) worker: Worker,
}

impl LaneSide {
    // Leaves the lane to the owner, and drops the share of the lanes. Gives the side back if
    // another call is at the lane's place.
    pub(crate) fn leave(self) -> Result<(), LaneSide> {
        let LaneSide { common, lane } = self;
        let place = lane.number() as usize;
        match leave(&common.lane_places[place], KeptLane { lane }) {
            Ok(()) => Ok(()),
            Err(kept) => {
                let lane = kept.into_lane();
                Err(LaneSide { common, lane })
            }
        }
    }

    // Returns the lane, and drops the share of the lanes.
    fn into_lane(self) -> Lane {
        let LaneSide { common: _, lane } = self;
        lane
    }

    // Submits a job.
    #[inline(always)]
    pub(crate) fn submit(&mut self, payload: u64, dim: u32) -> Submitted {
        self.common.lanes.submit(&mut self.lane, payload, dim)
    }
}

impl WorkerSide {
    // Returns the share of the lanes, and the worker.
    pub(crate) fn into_parts(self) -> (Arc<Common>, Worker) {
        let WorkerSide { common, worker } = self;
        (common, worker)
    }

    // Returns the worker's number.
    pub(crate) fn number(&self) -> u32 {
        self.worker.number()
    }

    // Leaves the worker to the owner, and drops the share of the lanes. Gives the side back if
    // another call is at the worker's place.
    pub(crate) fn leave(self) -> Result<(), WorkerSide> {
        let WorkerSide { common, worker } = self;
        let place = worker.number() as usize;
        match leave(&common.worker_places[place], KeptWorker { worker }) {
            Ok(()) => Ok(()),
            Err(kept) => {
                let worker = kept.into_worker();
                Err(WorkerSide { common, worker })
            }
        }
    }

    // Returns the worker, and drops the share of the lanes.
    fn into_worker(self) -> Worker {
        let WorkerSide { common: _, worker } = self;
        worker
    }

    // Returns the number of lanes.
    #[inline(always)]
    pub(crate) fn lane_count(&self) -> u32 {
        self.common.sizes.lanes
    }

    // Takes a job from a lane.
    #[inline(always)]
    pub(crate) fn take(&mut self, lane: u32) -> Taken {
        self.common.lanes.take(&mut self.worker, lane)
    }

    // Takes a job from the first lane that has one, from a lane on.
    #[inline(always)]
    pub(crate) fn take_any(&mut self, from: u32) -> TakenAny {
        self.common.lanes.take_any(&mut self.worker, from)
    }

    // Looks for a job in a lane, without taking it.
    #[inline(always)]
    pub(crate) fn look(&mut self, lane: u32) -> Looked {
        self.common.lanes.look(&mut self.worker, lane)
    }
}
