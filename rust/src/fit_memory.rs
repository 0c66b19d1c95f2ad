//! Memory of a machine of first fit: its own, or a borrowed slice.

#[cfg(any(feature = "lanes", feature = "plan", feature = "regions", feature = "std"))]
use alloc::{boxed::Box, vec};

/// Memory that a [`FirstFit`](super::FirstFit) uses: [`Owned`], or `&mut [u8]`.
pub trait Memory: Bytes {}

/// What the module needs of memory. Nothing outside can implement it.
pub trait Bytes {
    /// Returns the bytes, at a multiple of 8.
    fn bytes(&self) -> &[u8];
    /// Returns the same bytes.
    fn bytes_mut(&mut self) -> &mut [u8];
}

impl Memory for &mut [u8] {}

impl Bytes for &mut [u8] {
    fn bytes(&self) -> &[u8] {
        self
    }

    fn bytes_mut(&mut self) -> &mut [u8] {
        self
    }
}

/// Memory of a machine's own. A clone has a copy.
#[cfg(any(feature = "lanes", feature = "plan", feature = "regions", feature = "std"))]
#[derive(Clone)]
pub struct Owned {
    // So the bytes begin at a multiple of 8.
    words: Box<[u64]>,
    len: usize,
}

#[cfg(any(feature = "lanes", feature = "plan", feature = "regions", feature = "std"))]
impl Owned {
    /// Returns this many bytes, all 0.
    pub(crate) fn zeroed(len: usize) -> Self {
        Owned { words: vec![0; len.div_ceil(8)].into_boxed_slice(), len }
    }
}

#[cfg(any(feature = "lanes", feature = "plan", feature = "regions", feature = "std"))]
impl Memory for Owned {}

#[cfg(any(feature = "lanes", feature = "plan", feature = "regions", feature = "std"))]
impl Bytes for Owned {
    fn bytes(&self) -> &[u8] {
        debug_assert!(self.len <= 8 * self.words.len());
        // SAFETY: the words are that many bytes or more, and any byte is a `u8`.
        unsafe { core::slice::from_raw_parts(self.words.as_ptr().cast(), self.len) }
    }

    fn bytes_mut(&mut self) -> &mut [u8] {
        debug_assert!(self.len <= 8 * self.words.len());
        // SAFETY: as for `bytes`, and any eight bytes are a `u64`. The words are borrowed too.
        unsafe { core::slice::from_raw_parts_mut(self.words.as_mut_ptr().cast(), self.len) }
    }
}
