// Made from crates/cubejobs_sched/src/ownership.rt by checks/lib/erase.py. Change that file.
//! The ownership of what the handles of a scheduler share.

use crate::source::sched_threads::Threads;
use crate::source::kit::alloc::Global;
use core::ops::Deref;
use crate::source::kit::sync::Arc;

/// What the handles of a scheduler share, and whether other handles own it too.
pub(crate) enum Ownership {
    /// Other handles may own it too.
    Shared(Arc<Threads>),
    /// No other handle owns it.
    Sole(Threads),
}

impl Ownership {
    // Returns the scheduler.
    #[inline(always)]
    pub(crate) fn get(&self) -> &Threads {
        match self {
            Ownership::Shared(threads) => threads.deref(),
            Ownership::Sole(threads) => threads,
        }
    }

    // Returns an owner that others can join, and another one. Where memory runs out, the first
    // alone.
    pub(crate) fn share(self, alloc: Global) -> (Ownership, Option<Ownership>) {
        let shared = match self {
            Ownership::Shared(threads) => threads,
            Ownership::Sole(threads) => match Arc::new(alloc, threads) {
                Ok(threads) => threads,
                Err(failed) => return (Ownership::Sole(failed.value), None),
            },
        };
        match Arc::try_clone(&shared) {
            Ok(other) => (Ownership::Shared(shared), Some(Ownership::Shared(other))),
            Err(_) => (Ownership::Shared(shared), None),
        }
    }

    // Lets the owner go. The last one returns the scheduler.
    pub(crate) fn into_last(self) -> Option<Threads> {
        match self {
            Ownership::Shared(threads) => Arc::into_inner(threads),
            Ownership::Sole(threads) => Some(threads),
        }
    }
}
