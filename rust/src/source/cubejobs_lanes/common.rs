// Made from crates/cubejobs_lanes/src/common.rt by checks/lib/erase.py. Change that file.
//! What the handles of some lanes have in common.

use crate::source::kit::prelude::{Vec};

use crate::source::cubejobs_lanes::kept::{KeptLane, KeptWorker};
use crate::source::cubejobs_lanes::returns::ReturnPlace;
use crate::source::lanes::{Lanes, Sizes};

/// The lanes, their sizes, and the places by which lanes and workers come back.
pub(crate) struct Common {
    pub(crate) lanes: Lanes,
    pub(crate) sizes: Sizes,
    pub(crate) lane_places: Vec<ReturnPlace<KeptLane>>,
    pub(crate) worker_places: Vec<ReturnPlace<KeptWorker>>,
}
