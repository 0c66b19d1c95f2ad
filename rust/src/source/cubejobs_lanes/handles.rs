// Made from crates/cubejobs_lanes/src/handles.rt by checks/lib/erase.py. Change that file.
//! Contents go into handles and come out again.

use crate::source::kit::prelude::{Box};

use crate::source::cubejobs_lanes::codes::OPEN;
use crate::source::cubejobs_lanes::handle::Handle;
use crate::source::cubejobs_lanes::opaque_ptr::OpaquePtr;
use crate::source::cubejobs_lanes::state::State;
use crate::source::kit::alloc::Global;
use core::mem::replace;

impl Handle {
    // Makes a shut handle.
    #[inline(always)]
    pub(crate) fn shut(alloc: Global) -> Handle {
        Handle {
            tag: 0,
            ptr: OpaquePtr::nothing(alloc),
        }
    }

    // Makes the handle of a content.
    #[inline(always)]
    pub(crate) fn of(content: Box<State>) -> Handle {
        Handle {
            tag: OPEN,
            ptr: OpaquePtr::of(content),
        }
    }

    // Returns whether it is open.
    #[inline(always)]
    pub(crate) fn is_open(&self) -> bool {
        self.tag == OPEN
    }

    // Returns its content in its box, if it is open.
    #[inline(always)]
    fn into_box(self) -> Option<Box<State>> {
        let Handle { tag, ptr } = self;
        if tag == OPEN {
            Some(ptr.into_box())
        } else {
            None
        }
    }
}

// Lifts the content out of an open handle, which is shut then. A shut one stays as it is.
pub(crate) fn lift(handle: &mut Handle, alloc: Global) -> Option<Box<State>> {
    if !handle.is_open() {
        return None;
    }
    replace(handle, Handle::shut(alloc)).into_box()
}
