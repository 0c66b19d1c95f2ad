//! A value that several owners share, for which there may be no memory.

use super::alloc::{AllocFailed, Global};

pub use crate::shared::Shared as Arc;

impl<T> Arc<T> {
    pub fn new(_: Global, value: T) -> Result<Self, AllocFailed<T>> {
        Arc::try_new(value).map_err(|value| AllocFailed { value })
    }
}
