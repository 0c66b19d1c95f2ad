//! Allocators of aligned blocks, queues of jobs, and a planner and a scheduler of jobs in blocks:
//! safe Rust over the proved libraries of cubejobs.
//!
//! A machine of dimension `n` has the processors `0` to `2^n - 1`. A block (a [`Region`]) of
//! dimension `k` is `2^k` processors in a row, from a multiple of `2^k` on.
//!
//! | You have | Use |
//! |---|---|
//! | threads, and any number of blocks | `regions::Machine`, in the default feature `regions` |
//! | jobs for worker threads | `lanes::Lanes`, in the default feature `lanes` |
//! | threads that ask for their next job | `sched::Scheduler`, in the default feature `sched` |
//! | jobs that wait until there is room for them | `plan::Planner`, in the default feature `plan` |
//! | one thread, or threads under your lock | [`fit::FirstFit`], exact first fit |
//! | the same, in memory that processes share | [`fit::FirstFit`] over a slice |
//! | messages of your own between ranks | [`rounds::Collective`] |
//!
//! ```
//! use cubejobs::fit::{FirstFit, FitError};
//! use cubejobs::Region;
//!
//! let mut machine = FirstFit::new(3)?;
//! let pair = machine.take(1)?;
//! assert_eq!(pair, Region { base: 0, dim: 1 });
//! assert_eq!(machine.take(2)?, Region { base: 4, dim: 2 });
//! assert_eq!(machine.take(2), Err(FitError::NoRoom));
//! machine.release(pair)?;
//! # Ok::<(), FitError>(())
//! ```
//!
//! The proof of the library assumes that its callers keep some rules. These types keep them: their
//! memory is private, and `&mut` allows one call at a time. The crate has no dependencies. A
//! [`fit::FirstFit`] over a slice allocates no memory.
#![no_std]
#![warn(missing_docs)]

#[cfg(any(feature = "lanes", feature = "plan", feature = "regions", feature = "sched", feature = "std"))]
extern crate alloc;
#[cfg(feature = "std")]
extern crate std;

#[cfg(all(any(feature = "lanes", feature = "regions"), feature = "std"))]
mod event;
pub mod fit;
#[cfg_attr(not(cubejobs_archives), path = "over/fit_ffi.rs")]
mod fit_ffi;
#[cfg(all(doctest, feature = "lanes", feature = "plan", feature = "regions", feature = "sched"))]
mod forbidden;
#[cfg(feature = "regions")]
mod handles;
#[cfg(feature = "lanes")]
pub mod lanes;
#[cfg(feature = "lanes")]
#[cfg_attr(not(cubejobs_archives), path = "over/lanes_ffi.rs")]
mod lanes_ffi;
#[cfg(feature = "regions")]
mod own_handle;
#[cfg(all(feature = "lanes", feature = "std"))]
mod parking;
#[cfg(feature = "lanes")]
mod payload;
#[cfg(any(feature = "lanes", feature = "regions", all(feature = "sched", not(cubejobs_archives))))]
#[cfg_attr(not(any(feature = "lanes", feature = "regions")), allow(dead_code))]
mod place;
#[cfg(feature = "plan")]
pub mod plan;
#[cfg(feature = "plan")]
#[cfg_attr(not(cubejobs_archives), path = "over/plan_ffi.rs")]
mod plan_ffi;
#[cfg(all(doctest, feature = "regions"))]
#[doc = include_str!("../README.md")]
mod readme {}
mod region;
#[cfg(feature = "regions")]
pub mod regions;
#[cfg(feature = "regions")]
#[cfg_attr(not(cubejobs_archives), path = "over/regions_ffi.rs")]
mod regions_ffi;
#[cfg(feature = "lanes")]
mod room;
pub mod rounds;
#[cfg_attr(not(cubejobs_archives), path = "over/rounds_ffi.rs")]
mod rounds_ffi;
#[cfg(feature = "sched")]
pub mod sched;
#[cfg(feature = "sched")]
#[cfg_attr(not(cubejobs_archives), path = "over/sched_ffi.rs")]
mod sched_ffi;
#[cfg(any(feature = "lanes", feature = "regions", all(feature = "sched", not(cubejobs_archives))))]
#[cfg_attr(not(any(feature = "lanes", feature = "regions")), allow(dead_code))]
mod shared;
#[cfg(any(feature = "plan", feature = "sched"))]
mod slab;
#[cfg(not(cubejobs_archives))]
#[rustfmt::skip]
mod source;
#[cfg(feature = "sched")]
mod turns;
#[cfg(all(feature = "regions", feature = "std"))]
mod waiting;

pub use region::Region;
