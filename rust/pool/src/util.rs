//! Small helpers.

use std::any::Any;
use std::ops::Deref;
use std::panic::{catch_unwind, AssertUnwindSafe};
use std::sync::{Mutex, MutexGuard, PoisonError};

/// What a panic carries.
pub(crate) type Payload = Box<dyn Any + Send>;

/// A value with cache lines of its own.
#[derive(Default)]
#[repr(align(128))]
pub(crate) struct Padded<T>(pub T);

impl<T> Deref for Padded<T> {
    type Target = T;

    fn deref(&self) -> &T {
        &self.0
    }
}

/// Locks a mutex whose value is whole even after a panic.
pub(crate) fn lock<T>(mutex: &Mutex<T>) -> MutexGuard<'_, T> {
    mutex.lock().unwrap_or_else(PoisonError::into_inner)
}

/// Makes a call of the user. A panic ends here.
pub(crate) fn catch_quietly<R>(call: impl FnOnce() -> R) -> Option<R> {
    catch_unwind(AssertUnwindSafe(call)).map_err(drop_quietly).ok()
}

/// Drops a value of the user. A panic in its drop ends here, and so does one in the drop of that
/// panic's payload. The payload of the second is leaked.
pub(crate) fn drop_quietly<T>(value: T) {
    if let Err(first) = catch_unwind(AssertUnwindSafe(|| drop(value))) {
        if let Err(second) = catch_unwind(AssertUnwindSafe(|| drop(first))) {
            std::mem::forget(second);
        }
    }
}
