// Made from crates/cubejobs_plan/src/handle.rt by checks/lib/erase.py. Change that file.
//! The handle of a planner, which C keeps.

use crate::source::cubejobs_plan::opaque_ptr::OpaquePtr;

/// A handle of a planner, in memory that the caller keeps. It is open or shut. Only this library
/// follows the pointer of an open one.
#[repr(C)]
#[must_use = "the proved source spends each value of this type by a call"]
pub struct Handle {
    pub(crate) tag: u64,
    pub(crate) at: OpaquePtr,
}
