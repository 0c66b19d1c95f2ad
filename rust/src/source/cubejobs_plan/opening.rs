// Made from crates/cubejobs_plan/src/opening.rt by checks/lib/erase.py. Change that file.
//! How a planner is made, and how many bytes it needs.

use crate::source::kit::prelude::{Box};

use crate::source::cubejobs_plan::handle::Handle;
use crate::source::cubejobs_plan::opaque_ptr::OpaquePtr;
use crate::source::cubejobs_plan::options::Options;
use crate::source::cubejobs_plan::planner::Planner;
use crate::source::kit::fixed_vec::{Chunk, Store};
use crate::source::sched_core::Scheduler;
use crate::source::kit::alloc::Global;

/// The most bytes of a job.
pub const JOB_BYTES: u64 = 96;

/// The bytes of a node in the trees of a machine.
pub const NODE_BYTES: u64 = 14;

/// The most bytes that do not depend on the options.
pub const OTHER_BYTES: u64 = 4000;

/// The words of 8 bytes for the parts of a planner that are no vectors.
pub const PLACE_WORDS: usize = 128;

// Returns how many bytes a planner needs.
pub(crate) fn bytes(options: Options) -> u64 {
    OTHER_BYTES + NODE_BYTES * (1 << (options.dim + 1)) + JOB_BYTES * options.jobs as u64
}

// Makes a planner on the heap. Returns `None` if memory ran out.
pub(crate) fn opened(alloc: Global, options: Options) -> Option<Handle> {
    let mut store = Store::heap(alloc);
    let Some(planner) = planner_in(&mut store, options) else {
        return None;
    };
    match Box::new(alloc, planner) {
        Ok(place) => Some(Handle::of(place)),
        Err(failed) => {
            drop(failed);
            None
        }
    }
}

// Makes a planner in words that the caller lends. Returns `None` if they are too few.
pub(crate) fn opened_in(alloc: Global, options: Options, words: Chunk) -> Option<Handle> {
    let (there, words) = words.measured();
    if there < PLACE_WORDS {
        return None;
    }
    let (place, rest) = words.split(PLACE_WORDS);
    let mut store = Store::lent(alloc, rest);
    let Some(planner) = planner_in(&mut store, options) else {
        return None;
    };
    Some(Handle::of_lent(OpaquePtr::in_words(place, planner, alloc)))
}

// Makes a planner in memory of a store. Returns `None` if that ran out.
fn planner_in(store: &mut Store, options: Options) -> Option<Planner> {
    let made = Scheduler::new(store, options.dim, options.jobs as usize, options.patience);
    match made {
        Ok(scheduler) => Some(Planner { scheduler }),
        Err(_) => None,
    }
}
