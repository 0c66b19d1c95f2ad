//! A value that one call at a time borrows, and one that a proof gives to one thread at a time.

use core::cell::UnsafeCell;
use core::marker::PhantomData;
use core::ops::{Deref, DerefMut};
use core::panic::{RefUnwindSafe, UnwindSafe};
use core::sync::atomic::{AtomicBool, Ordering::SeqCst};

/// Lets other threads go on, before a call that they were in the way of is made again.
pub fn pause() {
    #[cfg(feature = "std")]
    std::thread::yield_now();
    #[cfg(not(feature = "std"))]
    core::hint::spin_loop();
}

/// A value in a cache line of its own.
#[repr(align(64))]
pub struct Apart<T>(pub T);

/// A value, and whether it is borrowed.
pub struct Place<T> {
    is_borrowed: AtomicBool,
    value: UnsafeCell<T>,
}

// SAFETY: only a `Borrowed` reaches the value by a shared reference, and there is one at a time. So
// threads get the value in turn, as if it were sent.
unsafe impl<T: Send> Sync for Place<T> {}

// A value is borrowed for one call of a library, which never unwinds. So a panic elsewhere leaves
// no value half changed.
impl<T> UnwindSafe for Place<T> {}
impl<T> RefUnwindSafe for Place<T> {}

/// A value that a proof gives to one thread at a time. The erased sources alone have such values.
#[allow(dead_code)]
pub struct Slot<T>(UnsafeCell<T>);

// SAFETY: as `lend` says, threads get the value in turn, as if it were sent.
unsafe impl<T: Send> Sync for Slot<T> {}

// A value is lent for one call of a library, as that of a `Place` is.
impl<T> UnwindSafe for Slot<T> {}
impl<T> RefUnwindSafe for Slot<T> {}

/// A borrowed value. It is given back when this is dropped.
pub struct Borrowed<'a, T> {
    place: &'a Place<T>,
    // Threads may share this only if they may share the value.
    value: PhantomData<&'a mut T>,
}

impl<T> Place<T> {
    pub const fn new(value: T) -> Self {
        Place { is_borrowed: AtomicBool::new(false), value: UnsafeCell::new(value) }
    }

    /// Borrows the value, unless it is borrowed.
    pub fn borrow(&self) -> Option<Borrowed<'_, T>> {
        let is_borrowed = self.is_borrowed.load(SeqCst) || self.is_borrowed.swap(true, SeqCst);
        // A `Borrowed` that is dropped ends the borrow, so none is made for nothing.
        if is_borrowed {
            None
        } else {
            Some(Borrowed { place: self, value: PhantomData })
        }
    }

    /// Borrows the value, and waits until it can.
    pub fn wait(&self) -> Borrowed<'_, T> {
        loop {
            match self.borrow() {
                Some(borrowed) => return borrowed,
                None => pause(),
            }
        }
    }

    pub fn get_mut(&mut self) -> &mut T {
        self.value.get_mut()
    }
}

#[allow(dead_code)]
impl<T> Slot<T> {
    pub const fn new(value: T) -> Self {
        Slot(UnsafeCell::new(value))
    }

    /// Lends the value while its seat is borrowed. It is for a seat of a table that has the slot.
    pub fn lend<'a, S>(&'a self, _seat: &'a mut S) -> &'a mut T {
        // SAFETY: the proved rule of the table gives a slot to one seat at a time. The words by
        // which it passes from seat to seat are sequentially consistent.
        unsafe { &mut *self.0.get() }
    }

    pub fn get_mut(&mut self) -> &mut T {
        self.0.get_mut()
    }
}

impl<T> Deref for Apart<T> {
    type Target = T;

    fn deref(&self) -> &T {
        &self.0
    }
}

impl<T> DerefMut for Apart<T> {
    fn deref_mut(&mut self) -> &mut T {
        &mut self.0
    }
}

impl<T> Deref for Borrowed<'_, T> {
    type Target = T;

    fn deref(&self) -> &T {
        // SAFETY: this has set `is_borrowed`, so no other `Borrowed` reaches the value.
        unsafe { &*self.place.value.get() }
    }
}

impl<T> DerefMut for Borrowed<'_, T> {
    fn deref_mut(&mut self) -> &mut T {
        // SAFETY: as for `deref`.
        unsafe { &mut *self.place.value.get() }
    }
}

impl<T> Drop for Borrowed<'_, T> {
    fn drop(&mut self) {
        self.place.is_borrowed.store(false, SeqCst);
    }
}

#[cfg(test)]
mod tests {
    use super::{Place, Slot};

    #[test]
    fn a_value_is_borrowed_once() {
        let place = Place::new(7);
        let borrowed = place.borrow().unwrap();
        // A refused borrow leaves the other one as it is.
        assert!(place.borrow().is_none() && place.borrow().is_none());
        drop(borrowed);
        assert_eq!(*place.borrow().unwrap(), 7);
    }

    #[test]
    fn a_slot_keeps_what_is_written() {
        let mut slot = Slot::new(7);
        *slot.lend(&mut ()) += 1;
        assert_eq!((*slot.lend(&mut ()), *slot.get_mut()), (8, 8));
    }
}
