//! The proved sources as plain Rust: made by erasing the contracts from `crates/`.
//!
//! `checks/lib/erase.py` of the repository makes each folder here except [`kit`], which is written
//! by hand. Nothing of this is public. The modules of the folder `over` make the calls, and keep
//! what their clauses ask.
#![forbid(unsafe_code)]
// What clauses alone read is not used here. The layout is that of the proved sources.
#![allow(dead_code, unused_imports, unused_mut, unused_variables, private_interfaces)]
#![allow(clippy::all, clippy::pedantic)]
#![warn(clippy::incompatible_msrv)]

#[cfg(not(target_has_atomic = "64"))]
compile_error!("the crate cubejobs needs a processor with atomic accesses of 64 bits");

pub mod collectives;
pub mod cube_shape;
pub mod cubejobs_fit;
pub mod cubejobs_rounds;
pub mod fit_tree;
pub mod release_version;

#[cfg(any(feature = "lanes", feature = "plan", feature = "regions", feature = "sched"))]
pub mod kit;

#[cfg(feature = "regions")]
pub mod bitmap_occupancy;
#[cfg(feature = "regions")]
pub mod bitmap_tree;
#[cfg(feature = "regions")]
pub mod cubejobs_regions;

#[cfg(feature = "lanes")]
pub mod cubejobs_lanes;
#[cfg(feature = "lanes")]
pub mod lanes;
#[cfg(feature = "lanes")]
pub mod wake_calls;
#[cfg(feature = "lanes")]
pub mod wake_pool;

#[cfg(feature = "plan")]
pub mod cubejobs_plan;
#[cfg(any(feature = "plan", feature = "sched"))]
pub mod sched_blocks;
#[cfg(any(feature = "plan", feature = "sched"))]
pub mod sched_core;
#[cfg(any(feature = "plan", feature = "sched"))]
pub mod sched_jobs;
#[cfg(any(feature = "plan", feature = "sched"))]
pub mod sched_law;

#[cfg(feature = "sched")]
pub mod cubejobs_sched;
#[cfg(feature = "sched")]
pub mod sched_board;
#[cfg(feature = "sched")]
pub mod sched_threads;
