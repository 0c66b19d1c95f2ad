//! The shim: what the proved sources take from their toolchain, written by hand in safe Rust.
//!
//! It is trusted: no proof speaks of it. `README.md` of the folder above has a table that puts each
//! function beside the text of the toolchain that it replaces.

pub mod alloc;
#[cfg(any(feature = "lanes", feature = "regions", feature = "sched"))]
pub mod atomic_table;
pub mod collections;
#[cfg(feature = "lanes")]
pub mod counted_slot;
#[cfg(any(feature = "plan", feature = "sched"))]
pub mod fixed_vec;
pub mod heap;
pub mod opaque;
#[cfg(feature = "lanes")]
pub mod snapshot;
#[cfg(any(feature = "lanes", feature = "regions", feature = "sched"))]
pub mod sync;

/// The names that are known everywhere in the proved sources.
pub mod prelude {
    pub(crate) use super::collections::vec;
    pub use super::collections::Vec;
    pub use super::heap::Box;
}
