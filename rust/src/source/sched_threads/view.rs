// Made from crates/sched_threads/src/view.rt by checks/lib/erase.py. Change that file.

// What a seat of the table knows. No program makes a value of it.

use crate::source::sched_threads::clocked::ClockedDesk;
use crate::source::kit::collections::LinkedList;

// A turn: how many there were before it, and the desk before it and after it.
#[must_use = "the proved source spends each value of this type by a call"]
pub(crate) struct Turn {
    pub at: u64,
    pub from: ClockedDesk,
    pub to: ClockedDesk,
}

// The turns that the seat made, the newest first, and the desk that the seat found if it has the
// turn. It is barred if it found that another seat has the turn.
#[must_use = "the proved source spends each value of this type by a call"]
pub(crate) struct View {
    pub notes: LinkedList<Turn>,
    pub found: Option<ClockedDesk>,
    pub barred: bool,
}
