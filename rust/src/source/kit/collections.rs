//! Vectors and queues whose growth can fail.

use super::alloc::{AllocError, Global};
use core::ops::{Deref, DerefMut};

pub use alloc::collections::LinkedList;

/// Declares a list. The proofs show that there is room for what is added to reserved memory. They
/// also show that a list has no items where it is freed as an empty one.
macro_rules! list {
    ($list:ident, $inner:ty, $push:ident, $push_reserved:ident) => {
        #[derive(Debug)] pub struct $list<T>(pub(super) $inner);

        impl<T> $list<T> {
            pub fn with_capacity(_: Global, count: usize) -> Result<Self, AllocError> {
                let mut items = <$inner>::new();
                items.try_reserve_exact(count).map_err(|_| AllocError)?;
                Ok($list(items))
            }

            pub fn $push_reserved(&mut self, item: T) {
                assert!(self.0.len() < self.0.capacity(), "no room was reserved");
                self.0.$push(item);
            }

            pub fn destroy_empty(self) {
                assert!(self.0.is_empty(), "a list that is freed as empty has items");
            }
        }
    };
}

list!(Vec, alloc::vec::Vec<T>, push, push_reserved);
list!(VecDeque, alloc::collections::VecDeque<T>, push_back, push_back_reserved);

impl<T> Vec<T> {
    pub fn new(_: Global) -> Self {
        Vec(alloc::vec::Vec::new())
    }

    pub fn filled(alloc: Global, item: T, count: usize) -> Result<Self, AllocError>
    where
        T: Clone,
    {
        let mut made = Vec::with_capacity(alloc, count)?;
        made.0.resize(count, item);
        Ok(made)
    }

    pub fn push(&mut self, item: T) -> Result<(), AllocError> {
        self.0.try_reserve(1).map_err(|_| AllocError)?;
        self.0.push(item);
        Ok(())
    }

    pub fn pop(&mut self) -> Option<T> {
        self.0.pop()
    }

    pub fn as_slice(&self) -> &[T] {
        &self.0
    }
}

impl<T> Deref for Vec<T> {
    type Target = [T];

    fn deref(&self) -> &[T] {
        &self.0
    }
}

impl<T> DerefMut for Vec<T> {
    fn deref_mut(&mut self) -> &mut [T] {
        &mut self.0
    }
}

impl<T> VecDeque<T> {
    pub fn from_vec(items: Vec<T>) -> Self {
        VecDeque(items.0.into())
    }

    pub fn pop_front(&mut self) -> Option<T> {
        self.0.pop_front()
    }

    pub fn len(&self) -> usize {
        self.0.len()
    }

    pub fn is_empty(&self) -> bool {
        self.0.is_empty()
    }
}

/// Makes a vector: `vec![in alloc; item; count]`.
#[allow(unused_macros)] // not each form of the package needs it
macro_rules! vec_of {
    (in $alloc:expr; $item:expr; $count:expr) => {
        crate::source::kit::collections::Vec::filled($alloc, $item, $count)
    };
}
pub(crate) use vec_of as vec;
