//! A counted reference. Unlike `Arc::new`, it is an error of `Shared::try_new` if memory runs out.

use alloc::boxed::Box;
use alloc::vec::Vec;
use core::marker::PhantomData;
use core::mem::ManuallyDrop;
use core::ops::Deref;
use core::ptr::{slice_from_raw_parts_mut, NonNull};
use core::sync::atomic::{AtomicUsize, Ordering::SeqCst};

struct Counted<T> {
    count: AtomicUsize,
    value: T,
}

/// A reference to a value. The last one that is dropped drops the value.
pub struct Shared<T> {
    at: NonNull<Counted<T>>,
    value: PhantomData<Counted<T>>,
}

/// The error of a clone: there are too many references.
#[derive(Debug)]
pub struct TooMany;

// SAFETY: references in several threads share the value, and the last one drops it in its thread.
// So the value must be `Sync` and `Send`.
unsafe impl<T: Send + Sync> Send for Shared<T> {}
// SAFETY: as above. A shared reference can be cloned.
unsafe impl<T: Send + Sync> Sync for Shared<T> {}

impl<T> Shared<T> {
    /// Makes the first reference to a value. Returns the value if memory runs out.
    #[allow(dead_code)] // not all features call it
    pub fn try_new(value: T) -> Result<Self, T> {
        let mut one = Vec::new();
        if one.try_reserve_exact(1).is_err() {
            return Err(value);
        }
        one.push(Counted { count: AtomicUsize::new(1), value });
        let at = NonNull::from(Box::leak(one.into_boxed_slice())).cast();
        Ok(Shared { at, value: PhantomData })
    }

    /// Makes another reference.
    pub fn try_clone(&self) -> Result<Self, TooMany> {
        // SAFETY: as for `deref`.
        let count = unsafe { &self.at.as_ref().count };
        // Each reference takes memory, so that the count never overflows unless they are forgotten.
        if count.fetch_add(1, SeqCst) > usize::MAX / 2 {
            count.fetch_sub(1, SeqCst);
            return Err(TooMany);
        }
        Ok(Shared { at: self.at, value: PhantomData })
    }

    /// Ends this reference. Returns the value if it was the last one.
    #[allow(dead_code)] // the erased sources alone call it
    pub fn into_inner(self) -> Option<T> {
        let this = ManuallyDrop::new(self);
        // SAFETY: as for `deref`. The reference is not dropped, so it is counted until here.
        let count = unsafe { &this.at.as_ref().count };
        // SAFETY: this was the last reference.
        (count.fetch_sub(1, SeqCst) == 1).then(|| unsafe { this.take() })
    }

    /// Returns the value if there is no other reference, and this reference otherwise.
    #[allow(dead_code)] // the erased sources alone call it
    pub fn try_unwrap(self) -> Result<T, Self> {
        // SAFETY: as for `deref`.
        let count = unsafe { &self.at.as_ref().count };
        if count.compare_exchange(1, 0, SeqCst, SeqCst).is_err() {
            return Err(self);
        }
        // SAFETY: this was the last reference, and it is not dropped.
        Ok(unsafe { ManuallyDrop::new(self).take() })
    }

    /// Frees the memory, and returns the value.
    ///
    /// # Safety
    /// There is no other reference, and this one is not used again.
    unsafe fn take(&self) -> T {
        // SAFETY: the pointer is that of a slice of one place, which `try_new` leaked.
        let one = unsafe { Box::from_raw(slice_from_raw_parts_mut(self.at.as_ptr(), 1)) };
        let Some(counted) = one.into_vec().pop() else { unreachable!("a slice of one place is empty") };
        counted.value
    }
}

impl<T> Deref for Shared<T> {
    type Target = T;

    fn deref(&self) -> &T {
        // SAFETY: `new` made the value, and it lives as long as a reference is counted, as this is.
        unsafe { &self.at.as_ref().value }
    }
}

impl<T> Clone for Shared<T> {
    fn clone(&self) -> Self {
        self.try_clone().expect("too many references")
    }
}

impl<T> Drop for Shared<T> {
    fn drop(&mut self) {
        // SAFETY: as for `deref`.
        let count = unsafe { &self.at.as_ref().count };
        if count.fetch_sub(1, SeqCst) == 1 {
            // SAFETY: this was the last reference.
            drop(unsafe { self.take() });
        }
    }
}

#[cfg(test)]
mod tests {
    use super::Shared;
    use core::cell::Cell;

    struct Drops<'a>(&'a Cell<u32>);

    impl Drop for Drops<'_> {
        fn drop(&mut self) {
            self.0.set(self.0.get() + 1);
        }
    }

    #[test]
    fn the_last_reference_drops_the_value() {
        let drops = Cell::new(0);
        let one = Shared::try_new(Drops(&drops)).ok().unwrap();
        let other = one.clone();
        drop(one);
        assert_eq!((drops.get(), other.0.get()), (0, 0));
        drop(other);
        assert_eq!(drops.get(), 1);
    }

    #[test]
    fn the_last_reference_returns_the_value() {
        let drops = Cell::new(0);
        let one = Shared::try_new(Drops(&drops)).ok().unwrap();
        let other = one.clone();
        let Err(one) = one.try_unwrap() else { panic!("another reference is left") };
        assert!(other.into_inner().is_none() && drops.get() == 0);
        let Ok(value) = one.try_unwrap() else { panic!("no other reference is left") };
        assert_eq!(drops.get(), 0);
        let one = Shared::try_new(value).ok().unwrap();
        drop(one.into_inner().unwrap());
        assert_eq!(drops.get(), 1);
    }
}
