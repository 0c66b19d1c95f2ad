// Made from crates/cubejobs_regions/src/lib.rt by checks/lib/erase.py. Change that file.
//! The lock-free allocator of the bitmap tree for callers in C, C++ and Rust, as a static library.

pub(crate) mod aligned;
pub(crate) mod answer;
pub(crate) mod block_exports;
pub(crate) mod block_handle;
pub(crate) mod codes;
pub(crate) mod common;
pub(crate) mod ends;
pub(crate) mod gives;
pub(crate) mod halves;
pub(crate) mod handle;
pub(crate) mod holding;
pub(crate) mod law;
pub(crate) mod machine;
pub(crate) mod machine_exports;
pub(crate) mod occupancy;
pub(crate) mod opaque_ptr;
pub(crate) mod owner;
pub(crate) mod ownership;
pub(crate) mod places;
pub(crate) mod state;
pub(crate) mod tag;
pub(crate) mod take_exports;
pub(crate) mod takes;
pub(crate) mod version;

pub use answer::{Answer, OccupancyAnswer};
pub use block_exports::{
    cubejobs_regions_block, cubejobs_regions_join, cubejobs_regions_release, cubejobs_regions_split,
};
pub use block_handle::BlockHandle;
pub use codes::{DONE, OPEN, VERSION};
pub use handle::Handle;
pub use law::apart;
pub use machine_exports::{
    cubejobs_regions_free, cubejobs_regions_open_version, cubejobs_regions_share,
};
pub use occupancy::cubejobs_regions_occupancy;
pub use take_exports::{
    cubejobs_regions_take, cubejobs_regions_take_at, cubejobs_regions_take_exact,
};
pub use version::cubejobs_regions_version_number;
