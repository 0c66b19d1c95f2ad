// Made from crates/cubejobs_regions/src/places.rt by checks/lib/erase.py. Change that file.
//! The machine of a handle: as it is lent for a call, or lifted out and put back.

use crate::source::kit::prelude::{Box};

use crate::source::cubejobs_regions::codes::{ALREADY_OPEN, DONE, OPEN, OTHER_KIND};
use crate::source::cubejobs_regions::handle::Handle;
use crate::source::cubejobs_regions::machine::Machine;
use crate::source::cubejobs_regions::opaque_ptr::OpaquePtr;
use crate::source::cubejobs_regions::state::State;
use crate::source::cubejobs_regions::tag::holds;
use crate::source::bitmap_tree::{BlankSeat, HiddenSeat};
use crate::source::kit::alloc::Global;
use core::mem::replace;

impl Handle {
    // Makes a shut handle.
    #[inline(always)]
    pub(crate) fn shut(alloc: Global) -> Handle {
        Handle {
            tag: 0,
            ptr: OpaquePtr::nothing(alloc),
            seat: HiddenSeat::blank(),
        }
    }

    // Makes the handle of a machine.
    #[inline(always)]
    pub(crate) fn of(place: Box<State>) -> Handle {
        Handle {
            tag: OPEN,
            ptr: OpaquePtr::of(place),
            seat: HiddenSeat::blank(),
        }
    }

    // Keeps the seat of a call, and so what its steps found. No bytes change.
    pub(crate) fn keep(&mut self, seat: BlankSeat) {
        let last = HiddenSeat::of(seat.into_block_seat());
        replace(&mut self.seat, last).leave();
    }

    // Makes it the handle of a machine. A machine that it had is dropped.
    #[inline(always)]
    pub(crate) fn put(&mut self, place: Box<State>) {
        let Handle {
            tag: _,
            ptr: _,
            seat,
        } = replace(self, Handle::of(place));
        seat.leave();
    }

    // Returns whether it is open.
    #[inline(always)]
    pub(crate) fn is_open(&self) -> bool {
        self.tag == OPEN
    }

    // Returns why it cannot be opened, or `DONE`.
    pub(crate) fn refusal(&self) -> u32 {
        if self.tag == OPEN {
            return ALREADY_OPEN;
        }
        if holds(self.tag) { OTHER_KIND } else { DONE }
    }

    // Returns the machine in its place, if the handle is open.
    #[inline(always)]
    fn into_place(self) -> Option<Box<State>> {
        let Handle { tag, ptr, seat } = self;
        seat.leave();
        if tag == OPEN {
            Some(ptr.into_box())
        } else {
            None
        }
    }
}

// Lifts the machine out of an open handle, which is shut until it is put back.
#[inline(always)]
pub(crate) fn lift(handle: &mut Handle, alloc: Global) -> Option<Box<State>> {
    // The bytes of a shut handle stay as they are, whatever they are.
    if !handle.is_open() {
        return None;
    }
    replace(handle, Handle::shut(alloc)).into_place()
}

// Returns the machine that is the content of a handle.
#[inline(always)]
pub(crate) fn machine_at(state: &State) -> &Machine {
    match state {
        State::Machine(machine) => machine,
        State::Taken => unreachable!(),
    }
}
