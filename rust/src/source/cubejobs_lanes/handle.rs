// Made from crates/cubejobs_lanes/src/handle.rt by checks/lib/erase.py. Change that file.
//! The handle that C keeps.

use crate::source::cubejobs_lanes::opaque_ptr::OpaquePtr;

/// A handle in memory that the caller keeps. It is open or shut. Only this library follows the
/// pointer of an open one.
#[repr(C)]
pub struct Handle {
    pub(crate) tag: u64,
    pub(crate) ptr: OpaquePtr,
}
