//! What a proof remembers of a value. It has no bytes.

use core::marker::PhantomData;

/// What a proof remembers of a value.
pub struct Snapshot<T>(PhantomData<fn() -> T>);

impl<T> Snapshot<T> {
    pub fn of(_: &T) -> Self {
        Snapshot(PhantomData)
    }
}
