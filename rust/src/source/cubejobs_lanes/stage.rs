// Made from crates/cubejobs_lanes/src/stage.rt by checks/lib/erase.py. Change that file.
//! Whether lanes are closed.

use crate::source::cubejobs_lanes::kept::KeptNote;
use crate::source::lanes::Members;

/// Whether lanes are closed.
pub(crate) enum Stage {
    /// They are open. All lanes and workers are dealt out.
    Open(Members),
    /// They are closed.
    Closed(KeptNote),
}
