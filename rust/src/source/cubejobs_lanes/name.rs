// Made from crates/cubejobs_lanes/src/name.rt by checks/lib/erase.py. Change that file.
//! The names of places.

use crate::source::lanes::Lanes;
use crate::source::kit::snapshot::Snapshot;

/// Which lane or which worker of some lanes a place is for.
pub struct PlaceName {
    /// The lanes. Contracts alone see them.
    pub lanes: Snapshot<Lanes>,
    /// The number of the lane, or of the worker.
    pub number: u32,
}
