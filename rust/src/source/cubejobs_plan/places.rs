// Made from crates/cubejobs_plan/src/places.rt by checks/lib/erase.py. Change that file.
//! The planner of a handle in its place.

use crate::source::kit::prelude::{Box};

use crate::source::cubejobs_plan::codes::{LENT, OPEN};
use crate::source::cubejobs_plan::handle::Handle;
use crate::source::cubejobs_plan::opaque_ptr::OpaquePtr;
use crate::source::cubejobs_plan::planner::Planner;
use crate::source::kit::alloc::Global;
use core::mem::replace;

impl Handle {
    // Makes a shut handle.
    #[inline(always)]
    pub(crate) fn shut(alloc: Global) -> Handle {
        Handle {
            tag: 0,
            at: OpaquePtr::nothing(alloc),
        }
    }

    // Makes the handle of a planner.
    #[inline(always)]
    pub(crate) fn of(place: Box<Planner>) -> Handle {
        Handle {
            tag: OPEN,
            at: OpaquePtr::of(place),
        }
    }

    // Makes the handle of a planner in memory of the caller.
    #[inline(always)]
    pub(crate) fn of_lent(at: OpaquePtr) -> Handle {
        Handle { tag: LENT, at }
    }

    // Makes it another handle. A planner that it had is forgotten.
    #[inline(always)]
    pub(crate) fn put(&mut self, handle: Handle) {
        let Handle { tag: _, at: _ } = replace(self, handle);
    }

    // Returns whether it is open.
    #[inline(always)]
    pub(crate) fn is_open(&self) -> bool {
        self.tag == OPEN || self.tag == LENT
    }

    // Drops the planner, if it is on the heap. Memory of the caller stays as it is.
    #[inline(always)]
    pub(crate) fn free(self) {
        let Handle { tag, at } = self;
        if tag == OPEN {
            drop(at.into_box());
        }
    }
}
