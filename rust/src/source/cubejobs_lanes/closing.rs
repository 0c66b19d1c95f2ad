// Made from crates/cubejobs_lanes/src/closing.rt by checks/lib/erase.py. Change that file.
//! How lanes are closed.

use crate::source::cubejobs_lanes::kept::KeptNote;
use crate::source::cubejobs_lanes::owner::Owner;
use crate::source::cubejobs_lanes::stage::Stage;

impl Owner {
    // Closes all lanes. Returns how many jobs they have accepted, unless they were closed.
    pub(crate) fn close(self) -> (Owner, Option<u64>) {
        if let Stage::Closed(_) = &self.stage {
            return (self, None);
        }
        let Owner {
            common,
            stage,
            lanes,
            workers,
        } = self;
        let Stage::Open(members) = stage else {
            unreachable!()
        };
        let note = common.lanes.close(members.into_closer());
        let total = note.number();
        let owner = Owner {
            common,
            stage: Stage::Closed(KeptNote { note }),
            lanes,
            workers,
        };
        (owner, Some(total))
    }
}
