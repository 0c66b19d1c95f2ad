// Made from crates/bitmap_occupancy/src/lib.rt by checks/lib/erase.py. Change that file.
//! Occupancy of a machine of the bitmap tree: which blocks are free, and how many processors are
//! held. Each word is read once, and counted as it is read.

pub(crate) mod counter;
pub(crate) mod pass;
pub(crate) mod processors;
pub(crate) mod summary;
pub(crate) mod totals;

pub use summary::{FREE_PLACES, Occupancy};
pub use totals::occupancy;
