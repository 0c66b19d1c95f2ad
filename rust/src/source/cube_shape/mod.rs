// Made from crates/cube_shape/src/lib.rt by checks/lib/erase.py. Change that file.
//! The shape of a hypercube machine: its aligned power-of-two blocks (`Region`), the binary tree of
//! nodes that names them, and the limits of all crates.
//!
//! A machine of dimension `n` has the `2^n` processors `0` to `2^n - 1`. The aligned block `(m, k)`
//! consists of the `2^k` processors from `m * 2^k` on, for an `m` below `2^(n - k)`. It is a
//! subcube: exactly its top `n - k` address bits are fixed. The buddy strategy allocates these
//! blocks. Source: Chen and Shin, "Processor Allocation in an N-Cube Multiprocessor Using Gray
//! Codes", IEEE Transactions on Computers, 1987.
//!
//! The nodes of a binary tree are `1` to `2^(n + 1) - 1`. Node `v` has the children `2v` and
//! `2v + 1`. Each node names one aligned block: the node of block `(m, k)` is `2^(n - k) + m`.

pub(crate) mod falling;
pub(crate) mod limits;
pub(crate) mod machine;
pub(crate) mod neighbours;
pub(crate) mod node;
pub(crate) mod paths;
pub(crate) mod region;

pub use falling::falling_widths_never_fragment;
pub use limits::{
    Dim, MAX_BITMAP_DIM, MAX_CAPACITY, MAX_DIM, MAX_DISPATCHERS, MAX_ENTRIES, MAX_LANES,
    MAX_PASSES, MAX_STATIONS,
};
pub use machine::first_fit_is_the_least;
pub use neighbours::neighbour;
pub use node::{Node, Side};
pub use paths::{child_towards, on_path, parent, side};
pub use region::{Region, node_of, region_of, regions_apart};
