// Made from crates/cubejobs_lanes/src/owner_exports.rt by checks/lib/erase.py. Change that file.
//! The calls of the owner of lanes, under the names that C declares.

use crate::source::cubejobs_lanes::codes::{ALREADY_OPEN, BAD_SIZES, BAD_VERSION, DONE, OUT_OF_MEMORY, VERSION};
use crate::source::cubejobs_lanes::dealing::{filled, room};
use crate::source::cubejobs_lanes::handle::Handle;
use crate::source::cubejobs_lanes::owner::Owner;
use crate::source::cubejobs_lanes::sizes::LaneSizes;
use crate::source::cubejobs_lanes::state::State;
use crate::source::kit::alloc::Global;

/// Opens lanes of which nothing was asked. `version` is that of the caller's header.
///
/// # Clauses of the proved source
///
/// - ensures bad_version: `version ≢ VERSION → result ≡ BAD_VERSION`
/// - ensures already_open: `version ≡ VERSION → IsSome (content_of owner.old) → result ≡ ALREADY_OPEN`
/// - ensures bad_sizes: `version ≡ VERSION → content_of owner.old ≡ None → (AreInLimits sizes → ⊥) → result ≡ BAD_SIZES`
/// - ensures else_memory: `version ≡ VERSION → content_of owner.old ≡ None → AreInLimits sizes → (result ≡ DONE) ⊎ (result ≡ OUT_OF_MEMORY)`
/// - ensures new: `result ≡ DONE → On (IsNew (sizes_of sizes)) (owner_in (content_of owner.new))`
/// - ensures unchanged: `result ≢ DONE → owner.new ≡ owner.old`
pub fn cubejobs_lanes_open_version(owner: &mut Handle,
    version: u32,
    sizes: LaneSizes,
) -> u32 {
    let alloc = Global;
    if version != VERSION {
        return BAD_VERSION;
    }
    if owner.is_open() {
        return ALREADY_OPEN;
    }
    if !sizes.are_in_limits() {
        return BAD_SIZES;
    }
    let Some(room) = room(alloc) else {
        return OUT_OF_MEMORY;
    };
    match Owner::open(alloc, sizes.sizes()) {
        Ok(lanes) => {
            *owner = Handle::of(filled(room, State::Owner(lanes)));
            DONE
        }
        Err(_) => OUT_OF_MEMORY,
    }
}

/// Gives a producer a handle of the first lane that is in its place.
///
/// # Clauses of the proved source
///
/// - ensures already_open: `IsSome (content_of lane.old) → result ≡ ALREADY_OPEN`
/// - ensures barred: `content_of lane.old ≡ None → owner_refusal (content_of owner.old) ≢ DONE → result ≡ owner_refusal (content_of owner.old)`
/// - ensures asked: `content_of lane.old ≡ None → owner_refusal (content_of owner.old) ≡ DONE → On (λ old. On (λ new. AsksLane result old new (content_of lane.new)) (owner_in (content_of owner.new))) (owner_in (content_of owner.old))`
/// - ensures none: `result ≢ DONE → lane.new ≡ lane.old`
/// - ensures open_unchanged: `IsSome (content_of lane.old) → owner.new ≡ owner.old`
/// - ensures unchanged: `owner_refusal (content_of owner.old) ≢ DONE → owner.new ≡ owner.old`
pub fn cubejobs_lanes_lane(owner: &mut Handle, lane: &mut Handle) -> u32 {
    let alloc = Global;
    if lane.is_open() {
        return ALREADY_OPEN;
    }
    let code = owner.owner_code();
    if code != DONE {
        return code;
    }
    let State::Owner(lanes) = owner.ptr.get_mut() else {
        unreachable!()
    };
    match lanes.ask_lane(alloc) {
        Ok(content) => {
            *lane = Handle::of(content);
            DONE
        }
        Err(code) => code,
    }
}

/// Gives a worker a handle: the first that is in its place.
///
/// # Clauses of the proved source
///
/// - ensures already_open: `IsSome (content_of worker.old) → result ≡ ALREADY_OPEN`
/// - ensures barred: `content_of worker.old ≡ None → owner_refusal (content_of owner.old) ≢ DONE → result ≡ owner_refusal (content_of owner.old)`
/// - ensures asked: `content_of worker.old ≡ None → owner_refusal (content_of owner.old) ≡ DONE → On (λ old. On (λ new. AsksWorker result old new (content_of worker.new)) (owner_in (content_of owner.new))) (owner_in (content_of owner.old))`
/// - ensures none: `result ≢ DONE → worker.new ≡ worker.old`
/// - ensures open_unchanged: `IsSome (content_of worker.old) → owner.new ≡ owner.old`
/// - ensures unchanged: `owner_refusal (content_of owner.old) ≢ DONE → owner.new ≡ owner.old`
pub fn cubejobs_lanes_worker(owner: &mut Handle,
    worker: &mut Handle,
) -> u32 {
    let alloc = Global;
    if worker.is_open() {
        return ALREADY_OPEN;
    }
    let code = owner.owner_code();
    if code != DONE {
        return code;
    }
    let State::Owner(lanes) = owner.ptr.get_mut() else {
        unreachable!()
    };
    match lanes.ask_worker(alloc) {
        Ok(content) => {
            *worker = Handle::of(content);
            DONE
        }
        Err(code) => code,
    }
}
