// Made from crates/cubejobs_lanes/src/waking.rt by checks/lib/erase.py. Change that file.
//! A producer of lanes wakes a worker that sleeps.

use crate::source::cubejobs_lanes::sides::LaneSide;
use crate::source::cubejobs_lanes::tries::TRIES;
use crate::source::wake_calls::Wake;

impl LaneSide {
    // Gives the token to a worker that sleeps, if one is to be woken after the lane's last job.
    pub(crate) fn wake(&mut self) -> Wake {
        self.common.lanes.wake_one(&mut self.lane, TRIES)
    }
}
