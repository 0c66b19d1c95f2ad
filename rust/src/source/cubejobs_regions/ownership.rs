// Made from crates/cubejobs_regions/src/ownership.rt by checks/lib/erase.py. Change that file.
//! The ownership of what the handles of a machine have in common.

use crate::source::cubejobs_regions::common::Common;
use crate::source::kit::alloc::Global;
use core::ops::Deref;
use crate::source::kit::sync::Arc;

/// What the handles of a machine have in common, and whether other handles own it too.
pub(crate) enum Ownership {
    /// Other handles may own it too.
    Shared(Arc<Common>),
    /// No other handle owns it.
    Sole(Common),
}

impl Ownership {
    // Returns what the handles have in common.
    #[inline(always)]
    pub(crate) fn get(&self) -> &Common {
        match self {
            Ownership::Shared(common) => common.deref(),
            Ownership::Sole(common) => common,
        }
    }

    // Returns an owner that others can join, and another one. Where memory runs out, the first
    // alone.
    pub(crate) fn share(self, alloc: Global) -> (Ownership, Option<Ownership>) {
        let shared = match self {
            Ownership::Shared(common) => common,
            Ownership::Sole(common) => match Arc::new(alloc, common) {
                Ok(common) => common,
                Err(failed) => return (Ownership::Sole(failed.value), None),
            },
        };
        match Arc::try_clone(&shared) {
            Ok(other) => (Ownership::Shared(shared), Some(Ownership::Shared(other))),
            Err(_) => (Ownership::Shared(shared), None),
        }
    }

    // Lets the owner go. The last one returns what the handles had in common.
    pub(crate) fn into_last(self) -> Option<Common> {
        match self {
            Ownership::Shared(common) => Arc::into_inner(common),
            Ownership::Sole(common) => Some(common),
        }
    }
}
