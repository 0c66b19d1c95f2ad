//! A value on the heap, for which there may be no memory.

use super::alloc::{AllocFailed, Global};
use core::mem::replace;
use core::ops::{Deref, DerefMut};

/// A value on the heap. It is one pointer.
pub struct Box<T>(alloc::boxed::Box<[T; 1]>);

impl<T> Box<T> {
    pub fn new(_: Global, value: T) -> Result<Self, AllocFailed<T>> {
        let mut one = alloc::vec::Vec::new();
        if one.try_reserve_exact(1).is_err() {
            return Err(AllocFailed { value });
        }
        one.push(value);
        let Ok(one) = one.into_boxed_slice().try_into() else { unreachable!("one value is no slice of one") };
        Ok(Box(one))
    }

    /// Puts a value into a box, and returns what was there.
    pub fn replace(it: &mut Self, value: T) -> T {
        replace(it, value)
    }
}

impl<T> Deref for Box<T> {
    type Target = T;

    fn deref(&self) -> &T {
        &self.0[0]
    }
}

impl<T> DerefMut for Box<T> {
    fn deref_mut(&mut self) -> &mut T {
        &mut self.0[0]
    }
}
