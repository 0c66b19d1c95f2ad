// Made from crates/cubejobs_sched/src/handle.rt by checks/lib/erase.py. Change that file.
//! The handle of a scheduler, which C keeps.

use crate::source::cubejobs_sched::opaque_ptr::OpaquePtr;
use crate::source::sched_threads::HiddenReceipt;

/// A thread's handle of a scheduler, in memory that the caller keeps. It is open or shut. Only this
/// library follows the pointer of an open one.
#[repr(C)]
#[must_use = "the proved source spends each value of this type by a call"]
pub struct Handle {
    pub(crate) tag: u64,
    pub(crate) at: OpaquePtr,
    // That of the last call.
    pub(crate) receipt: HiddenReceipt,
}
