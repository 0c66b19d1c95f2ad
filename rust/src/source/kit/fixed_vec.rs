//! Vectors of a fixed length. They are always on the heap: words that a caller lends stay unused.

use super::alloc::{AllocError, Global};
use super::collections::Vec;
use core::ops::{Deref, DerefMut};

/// Words of 8 bytes that a caller lends.
#[repr(C)]
pub struct Chunk {
    pub at: *mut u8,
    pub words: usize,
}

impl Chunk {
    pub fn measured(self) -> (usize, Chunk) {
        (self.words, self)
    }

    pub fn split(self, words: usize) -> (Chunk, Chunk) {
        let rest = Chunk { at: self.at, words: self.words - words };
        (Chunk { at: self.at, words }, rest)
    }
}

/// Where new vectors go.
pub struct Store(Global);

/// A vector of a fixed length.
#[derive(Debug)]
pub struct FixedVec<T>(Vec<T>);

impl Store {
    pub fn heap(alloc: Global) -> Store {
        Store(alloc)
    }

    pub fn lent(alloc: Global, _: Chunk) -> Store {
        Store(alloc)
    }

    pub fn filled<T: Copy>(&mut self, value: T, count: usize, _: usize) -> Result<FixedVec<T>, AllocError> {
        Ok(FixedVec(Vec::filled(self.0, value, count)?))
    }
}

impl<T> Deref for FixedVec<T> {
    type Target = [T];

    fn deref(&self) -> &[T] {
        &self.0
    }
}

impl<T> DerefMut for FixedVec<T> {
    fn deref_mut(&mut self) -> &mut [T] {
        &mut self.0
    }
}
