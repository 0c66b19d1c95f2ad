//! The functions of the headers in `include/`, over the erased sources: a library for C and C++ on
//! any target. It has the same names, structs and rules as the proved archives.
//!
//! The modules `fit`, `rounds`, `regions`, `lanes`, `plan` and `sched` are made by
//! `checks/lib/erase.py`. A caller in C promises what the header says: pointers to whole handles, zeroed
//! before their first use, and one call at a time with each.

extern crate alloc;

#[cfg(feature = "fit")]
#[rustfmt::skip]
mod fit;
#[cfg(feature = "lanes")]
#[rustfmt::skip]
mod lanes;
#[cfg(any(feature = "lanes", feature = "regions", feature = "sched"))]
#[path = "../../src/place.rs"]
#[allow(dead_code, unexpected_cfgs)]
mod place;
#[cfg(feature = "plan")]
#[rustfmt::skip]
mod plan;
#[cfg(feature = "regions")]
#[rustfmt::skip]
mod regions;
#[cfg(feature = "rounds")]
#[rustfmt::skip]
mod rounds;
#[cfg(feature = "sched")]
#[rustfmt::skip]
mod sched;
#[cfg(any(feature = "lanes", feature = "regions", feature = "sched"))]
#[path = "../../src/shared.rs"]
mod shared;
mod slices;
#[path = "../../src/source/mod.rs"]
#[rustfmt::skip]
mod source;

// C sees a head as bytes, and a handle as a number and a pointer.
#[cfg(feature = "fit")]
const _: () = assert!(size_of::<source::fit_tree::Head>() == size_of::<[u32; 24]>());
#[cfg(feature = "lanes")]
const _: () = assert!(size_of::<source::cubejobs_lanes::Handle>() == size_of::<(u64, *const u8)>());
#[cfg(feature = "plan")]
const _: () = assert!(size_of::<source::cubejobs_plan::Handle>() == size_of::<(u64, *const u8)>());
#[cfg(feature = "regions")]
const _: () = assert!(size_of::<source::cubejobs_regions::Handle>() == size_of::<(u64, *const u8)>());
#[cfg(feature = "regions")]
const _: () = assert!(size_of::<source::cubejobs_regions::BlockHandle>() == size_of::<[u64; 2]>());
#[cfg(feature = "sched")]
const _: () = assert!(size_of::<source::cubejobs_sched::Handle>() == size_of::<(u64, *const u8)>());
