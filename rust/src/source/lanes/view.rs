// Made from crates/lanes/src/view.rt by checks/lib/erase.py. Change that file.

// What a seat of the table knows. No value of it is made.
use crate::source::lanes::record::{LaneRecord, WorkerRecord};
use crate::source::lanes::sizes::Plan;
use crate::source::kit::collections::LinkedList;
use crate::source::wake_calls::{ThreadRecord, WakeDeed};

// Where the closer has closed each lane: the number of accepted jobs.
#[must_use = "the proved source spends each value of this type by a call"]
pub struct CloserRecord {
    pub plan: Plan,
    pub closed: LinkedList<Option<u64>>,
}

// The records that the seat carries.
#[must_use = "the proved source spends each value of this type by a call"]
pub struct View {
    pub lanes: LinkedList<LaneRecord>,
    pub workers: LinkedList<WorkerRecord>,
    pub closers: LinkedList<CloserRecord>,
}

// The same, and the threads whose steps the seat makes: workers, and other threads. It has their
// deeds, the newest first.
#[must_use = "the proved source spends each value of this type by a call"]
pub struct Both {
    pub known: View,
    pub sleepers: LinkedList<ThreadRecord>,
    pub others: LinkedList<ThreadRecord>,
    pub deeds: LinkedList<WakeDeed>,
}
