// Made from crates/cubejobs_lanes/src/left.rt by checks/lib/erase.py. Change that file.
//! The jobs that are left after the end of lanes.

use crate::source::cubejobs_lanes::answers::JobAnswer;
use crate::source::cubejobs_lanes::codes::EMPTY;
use crate::source::lanes::LaneJob;
use crate::source::kit::collections::VecDeque;

/// The jobs that are left, each with its lane.
pub(crate) struct Left {
    pub(crate) jobs: VecDeque<(u32, LaneJob)>,
}

impl Left {
    // Removes the first job. Returns it with the number of jobs after it.
    pub(crate) fn give(&mut self) -> JobAnswer {
        match self.jobs.pop_front() {
            None => JobAnswer::none(EMPTY),
            Some((lane, job)) => JobAnswer::job(lane, job, self.jobs.len() as u64),
        }
    }
}
