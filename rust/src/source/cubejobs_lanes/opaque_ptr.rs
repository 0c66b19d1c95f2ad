// Made from crates/cubejobs_lanes/src/opaque_ptr.rt by checks/lib/erase.py. Change that file.
//! The pointer of a handle to its content on the heap, or to nothing.

use crate::source::cubejobs_lanes::state::State;
use crate::source::kit::opaque::Opaque;

pub(crate) type OpaquePtr = Opaque<State>;
