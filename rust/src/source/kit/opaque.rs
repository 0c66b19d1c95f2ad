//! The content of a handle, or nothing. It is one pointer, which C may see.

use super::{alloc::Global, heap::Box};

/// The content of a handle, or nothing.
#[repr(transparent)]
pub struct Opaque<T>(Option<Box<T>>);

impl<T> Opaque<T> {
    pub const fn nothing(_: Global) -> Self {
        Opaque(None)
    }

    pub fn of(content: Box<T>) -> Self {
        Opaque(Some(content))
    }

    /// Makes a pointer to a content on the heap: words of the caller stay unused.
    #[cfg(feature = "plan")]
    pub fn in_words(_: super::fixed_vec::Chunk, content: T, alloc: Global) -> Self {
        Opaque(Box::new(alloc, content).ok())
    }

    /// Lends the content. The proofs show that there is one.
    pub fn get_mut(&mut self) -> &mut T {
        self.0.as_mut().expect("a shut handle has no content")
    }

    /// Returns the content. The proofs show that there is one.
    pub fn into_box(self) -> Box<T> {
        self.0.expect("a shut handle has no content")
    }
}
