// Made from crates/cubejobs_regions/src/handle.rt by checks/lib/erase.py. Change that file.
//! The handle of a machine, which C keeps.

use crate::source::cubejobs_regions::opaque_ptr::OpaquePtr;
use crate::source::bitmap_tree::HiddenSeat;

/// A thread's handle of a machine, in memory that the caller keeps. It is open or shut. Only this
/// library follows the pointer of an open one.
#[repr(C)]
#[must_use = "the proved source spends each value of this type by a call"]
pub struct Handle {
    pub(crate) tag: u64,
    pub(crate) ptr: OpaquePtr,
    // That of the last call that was to free the machine or counted what is free. It has no bit.
    pub(crate) seat: HiddenSeat,
}
