//! The handles of a machine of regions. A call borrows one that no other call has.
//!
//! The library allows one call at a time with a handle, and blocks may be dropped by any thread. So
//! no handle here belongs to a thread. A thread usually borrows the same one, which no other thread
//! wants.

use crate::place::{pause, Apart, Borrowed, Place};
use crate::regions_ffi::{self as ffi, Handle};

/// The number of handles of a machine, besides the first. A call waits only while the calls of
/// this many other threads are in progress.
const COUNT: usize = 32;

/// The first handle of a machine, which is only for opening others, and for calls that get none of
/// these. The others are opened when they are first borrowed.
pub struct Handles {
    first: Apart<Place<Handle>>,
    others: [Apart<Place<Handle>>; COUNT],
    /// The number of the machine.
    pub number: u64,
}

impl Handles {
    /// Opens a machine. Returns its handles, or the code of the refusal.
    pub fn open(dim: u32) -> Result<Self, u32> {
        let mut first = Apart(Place::new(Handle::SHUT));
        let number = ffi::open(first.get_mut(), dim)?;
        Ok(Handles { first, others: [const { Apart(Place::new(Handle::SHUT)) }; COUNT], number })
    }

    /// Borrows a handle: the thread's usual one, or the next that no other call has.
    pub fn borrow(&self) -> Borrowed<'_, Handle> {
        let usual = usual_place();
        loop {
            for number in usual..usual + COUNT {
                if let Some(borrowed) = self.open_place(&self.others[number % COUNT]) {
                    return borrowed;
                }
            }
            if let Some(borrowed) = self.first.borrow() {
                return borrowed;
            }
            pause();
        }
    }

    /// Opens a handle that is none of these. Returns it, or the code of the refusal.
    pub fn another(&self) -> Result<Handle, u32> {
        let mut another = Handle::SHUT;
        match ffi::share(&mut self.first.wait(), &mut another) {
            ffi::DONE => Ok(another),
            code => Err(code),
        }
    }

    /// Borrows the handle of a place, and opens it if it is shut. Returns `None` if it is borrowed,
    /// or if it cannot be opened now.
    fn open_place<'a>(&'a self, place: &'a Place<Handle>) -> Option<Borrowed<'a, Handle>> {
        let mut borrowed = place.borrow()?;
        if borrowed.is_shut() {
            let mut first = self.first.borrow()?;
            if ffi::share(&mut first, &mut borrowed) != ffi::DONE {
                return None;
            }
        }
        Some(borrowed)
    }

    /// Shuts all handles, which frees the machine, unless a thread has forgotten a handle of its
    /// own. Returns `false`, and keeps the first handle open, if a block is held.
    pub fn free(&mut self) -> bool {
        for place in &mut self.others {
            ffi::free(place.get_mut());
            *place = Apart(Place::new(Handle::SHUT));
        }
        let first = self.first.get_mut();
        // If another handle is open, a free does not look for held blocks.
        ffi::occupancy(first).held == 0 && ffi::free(first) == ffi::DONE
    }
}

/// Returns a number that differs from thread to thread: it is of the address of the stack.
fn usual_place() -> usize {
    let here = 0_u8;
    let page = (&raw const here as usize) >> 16;
    page ^ page >> 5 ^ page >> 10
}
