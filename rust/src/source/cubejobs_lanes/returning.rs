// Made from crates/cubejobs_lanes/src/returning.rt by checks/lib/erase.py. Change that file.
//! Lanes and workers come back to the owner, from any thread.

use crate::source::cubejobs_lanes::owner::Owner;
use crate::source::cubejobs_lanes::returns::collect_all;

impl Owner {
    // Takes the lanes and workers that have come back into their places.
    pub(crate) fn collect(&mut self) {
        collect_all(&self.common.lane_places, &mut self.lanes);
        collect_all(&self.common.worker_places, &mut self.workers);
    }
}
