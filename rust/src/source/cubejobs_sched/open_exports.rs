// Made from crates/cubejobs_sched/src/open_exports.rt by checks/lib/erase.py. Change that file.
//! The functions of the library that open, share and free a scheduler, under the names that C
//! declares.

use crate::source::cubejobs_sched::codes::{
    ALREADY_OPEN, BAD_VERSION, DONE, IN_USE, NOT_OPEN, OUT_OF_MEMORY, OUT_OF_RANGE, VERSION,
};
use crate::source::cubejobs_sched::ends;
use crate::source::cubejobs_sched::handle::Handle;
use crate::source::cubejobs_sched::options::{SchedOptions, are_in_range};
use crate::source::cubejobs_sched::places::lift;
use crate::source::kit::alloc::Global;

/// Opens a scheduler. No job waits or runs, and no thread is a worker. `version` is that of the
/// caller's header.
///
/// # Clauses of the proved source
///
/// - ensures bad_version: `version ≢ VERSION → result ≡ BAD_VERSION`
/// - ensures already_open: `version ≡ VERSION → IsSome (owner_of sched.old) → result ≡ ALREADY_OPEN`
/// - ensures out_of_range: `version ≡ VERSION → owner_of sched.old ≡ None → (IsInRange options → ⊥) → result ≡ OUT_OF_RANGE`
/// - ensures else_memory: `version ≡ VERSION → owner_of sched.old ≡ None → IsInRange options → (result ≡ DONE) ⊎ (result ≡ OUT_OF_MEMORY)`
/// - ensures new: `result ≡ DONE → IsNew options (owner_of sched.new)`
/// - ensures unchanged: `result ≢ DONE → sched.new ≡ sched.old`
pub fn cubejobs_sched_open_version(sched: &mut Handle,
    version: u32,
    options: SchedOptions,
) -> u32 {
    let alloc = Global;
    if version != VERSION {
        return BAD_VERSION;
    }
    if sched.is_open() {
        return ALREADY_OPEN;
    }
    if !are_in_range(options) {
        return OUT_OF_RANGE;
    }
    match ends::opened(alloc, options) {
        None => OUT_OF_MEMORY,
        Some(place) => {
            sched.put(place);
            DONE
        }
    }
}

/// Gives another thread a handle of the scheduler.
///
/// # Clauses of the proved source
///
/// - ensures already_open: `IsSome (owner_of other.old) → result ≡ ALREADY_OPEN`
/// - ensures not_open: `owner_of other.old ≡ None → owner_of sched.old ≡ None → result ≡ NOT_OPEN`
/// - ensures else_memory: `owner_of other.old ≡ None → IsSome (owner_of sched.old) → (result ≡ DONE) ⊎ (result ≡ OUT_OF_MEMORY)`
/// - ensures shared: `result ≡ DONE → IsSameOwned (owner_of sched.old) (owner_of other.new)`
/// - ensures same: `IsSome (owner_of sched.old) → IsSameOwned (owner_of sched.old) (owner_of sched.new)`
/// - ensures shut: `owner_of sched.old ≡ None → sched.new ≡ sched.old`
/// - ensures unchanged: `result ≢ DONE → other.new ≡ other.old`
pub fn cubejobs_sched_share(sched: &mut Handle, other: &mut Handle) -> u32 {
    let alloc = Global;
    if other.is_open() {
        return ALREADY_OPEN;
    }
    let Some(place) = lift(sched, alloc) else {
        return NOT_OPEN;
    };
    let (place, another) = ends::share(alloc, place);
    sched.put(place);
    match another {
        None => OUT_OF_MEMORY,
        Some(another) => {
            other.put(another);
            DONE
        }
    }
}

/// Frees a handle. The last one of a scheduler frees the scheduler. It refuses while a thread is a
/// worker, a job waits or runs, or a thread has the turn, and then nothing happens.
///
/// # Clauses of the proved source
///
/// - ensures not_open: `owner_of sched.old ≡ None → result ≡ NOT_OPEN`
/// - ensures tried: `IsSome (owner_of sched.old) → (result ≡ DONE) ⊎ (result ≡ IN_USE)`
/// - ensures unused: `result ≡ DONE → IsSole (owner_of sched.old) → OnThreads (λ threads. SawUnused threads (receipt_of sched.new)) (owner_of sched.old)`
/// - ensures shut: `result ≡ DONE → owner_of sched.new ≡ None`
/// - ensures kept: `result ≡ IN_USE → IsSameOwned (owner_of sched.old) (owner_of sched.new)`
/// - ensures sole: `result ≡ IN_USE → IsSole (owner_of sched.new)`
/// - ensures used: `result ≡ IN_USE → OnThreads (λ threads. SawUse threads (receipt_of sched.new)) (owner_of sched.new)`
/// - ensures unchanged: `result ≡ NOT_OPEN → sched.new ≡ sched.old`
pub fn cubejobs_sched_try_free(sched: &mut Handle) -> u32 {
    let alloc = Global;
    let Some(place) = lift(sched, alloc) else {
        return NOT_OPEN;
    };
    match ends::freed(place) {
        Ok(None) => DONE,
        Ok(Some(receipt)) => {
            sched.keep(receipt);
            DONE
        }
        Err((place, receipt)) => {
            sched.put(place);
            sched.keep(receipt);
            IN_USE
        }
    }
}
