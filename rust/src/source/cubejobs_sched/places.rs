// Made from crates/cubejobs_sched/src/places.rt by checks/lib/erase.py. Change that file.
//! The scheduler of a handle: as it is lent for a call, or lifted out and put back.

use crate::source::kit::prelude::{Box};

use crate::source::cubejobs_sched::codes::OPEN;
use crate::source::cubejobs_sched::handle::Handle;
use crate::source::cubejobs_sched::opaque_ptr::OpaquePtr;
use crate::source::cubejobs_sched::state::State;
use crate::source::sched_threads::{HiddenReceipt, Threads, TurnReceipt};
use crate::source::kit::alloc::Global;
use core::mem::replace;

impl Handle {
    // Makes a shut handle.
    #[inline(always)]
    pub(crate) fn shut(alloc: Global) -> Handle {
        Handle {
            tag: 0,
            at: OpaquePtr::nothing(alloc),
            receipt: HiddenReceipt::blank(),
        }
    }

    // Makes the handle of a scheduler.
    #[inline(always)]
    pub(crate) fn of(place: Box<State>) -> Handle {
        Handle {
            tag: OPEN,
            at: OpaquePtr::of(place),
            receipt: HiddenReceipt::blank(),
        }
    }

    // Makes it the handle of a scheduler. One that it had is forgotten.
    #[inline(always)]
    pub(crate) fn put(&mut self, place: Box<State>) {
        let Handle {
            tag: _,
            at: _,
            receipt,
        } = replace(self, Handle::of(place));
        receipt.leave();
    }

    // Keeps the receipt of a call. No bytes change.
    #[inline(always)]
    pub(crate) fn keep(&mut self, receipt: TurnReceipt) {
        replace(&mut self.receipt, HiddenReceipt::of(receipt)).leave();
    }

    // Returns whether it is open.
    #[inline(always)]
    pub(crate) fn is_open(&self) -> bool {
        self.tag == OPEN
    }

    // Returns the scheduler in its place, if the handle is open.
    #[inline(always)]
    fn into_place(self) -> Option<Box<State>> {
        let Handle { tag, at, receipt } = self;
        receipt.leave();
        if tag == OPEN {
            Some(at.into_box())
        } else {
            None
        }
    }
}

// Lifts the scheduler out of an open handle, which is shut until it is put back.
#[inline(always)]
pub(crate) fn lift(handle: &mut Handle, alloc: Global) -> Option<Box<State>> {
    // The bytes of a shut handle stay as they are, whatever they are.
    if !handle.is_open() {
        return None;
    }
    replace(handle, Handle::shut(alloc)).into_place()
}

// Returns the scheduler that is the content of a handle.
#[inline(always)]
pub(crate) fn threads_at(state: &State) -> &Threads {
    match state {
        State::Threads(owner) => owner.get(),
        State::Taken => unreachable!(),
    }
}
