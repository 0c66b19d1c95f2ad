// Made from crates/sched_threads/src/clocked.rt by checks/lib/erase.py. Change that file.
//! The desk with a clock.

use crate::source::sched_threads::desk::Desk;

// A desk, and the time of the last turn that had one. It never goes back.
pub(crate) struct ClockedDesk {
    pub desk: Desk,
    pub clock: u64,
}
