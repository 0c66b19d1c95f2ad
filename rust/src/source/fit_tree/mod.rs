// Made from crates/fit_tree/src/lib.rt by checks/lib/erase.py. Change that file.
//! Exact first fit of aligned power-of-two blocks, in about `2 * n` steps of a tree. The tree is in
//! memory that the caller keeps (`image`), or it is a value (`FitTree`).
//!
//! Each aligned block of a machine of dimension `n` is a node of a binary tree, as in `cube_shape`.
//! The byte of a node is its room. It is `0` if the node was taken as one block, and `1` if no part
//! of it is free. It is `k + 2` if `k` is the largest dimension of a free aligned block within it.
//! Rooms below a taken node are as if it were free. A head has the number of maximal free blocks of
//! each dimension.

pub(crate) mod apart;
pub(crate) mod checks;
pub(crate) mod counts;
pub(crate) mod errors;
#[cfg(any(feature = "plan", feature = "sched"))]
pub(crate) mod fit;
pub(crate) mod head;
pub mod image;
pub(crate) mod names;
pub(crate) mod repairs;
pub(crate) mod rooms;
pub(crate) mod walks;
pub(crate) mod writes;

pub use crate::source::cube_shape::{MAX_BITMAP_DIM, Region};
pub use errors::{JoinError, NoFitError, NotFreeError, NotHeldError, SplitError};
#[cfg(any(feature = "plan", feature = "sched"))]
pub use fit::FitTree;
pub use head::{COUNT_PLACES, Head, IMAGE_MARK};
