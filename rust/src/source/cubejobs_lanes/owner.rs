// Made from crates/cubejobs_lanes/src/owner.rt by checks/lib/erase.py. Change that file.
//! What the first handle of some lanes has: the lanes and workers that no other handle has.

use crate::source::kit::prelude::{Vec};

use crate::source::cubejobs_lanes::common::Common;
use crate::source::cubejobs_lanes::kept::{KeptLane, KeptWorker};
use crate::source::cubejobs_lanes::stage::Stage;
use crate::source::kit::sync::Arc;

/// The lanes, and a place for each of their lanes and workers. A place is empty while a handle has
/// its lane or its worker.
pub(crate) struct Owner {
    pub(crate) common: Arc<Common>,
    pub(crate) stage: Stage,
    pub(crate) lanes: Vec<Option<KeptLane>>,
    pub(crate) workers: Vec<Option<KeptWorker>>,
}
