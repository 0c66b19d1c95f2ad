// Made from crates/cubejobs_lanes/src/end_exports.rt by checks/lib/erase.py. Change that file.
//! The calls that close lanes and bring their handles back, under the names that C declares.

use crate::source::kit::prelude::{Box};

use crate::source::cubejobs_lanes::answers::{CloseAnswer, FinishAnswer};
use crate::source::cubejobs_lanes::codes::{CLOSED, DONE, STILL_SHARED};
use crate::source::cubejobs_lanes::dealing::filled;
use crate::source::cubejobs_lanes::handle::Handle;
use crate::source::cubejobs_lanes::handles::lift;
use crate::source::cubejobs_lanes::state::State;
use crate::source::kit::alloc::Global;

/// Closes all lanes, one after another. Returns how many jobs they have accepted.
///
/// # Clauses of the proved source
///
/// - ensures barred: `owner_refusal (content_of owner.old) ≢ DONE → result ≡ record { code = owner_refusal (content_of owner.old); accepted = 0 }`
/// - ensures was_closed: `owner_refusal (content_of owner.old) ≡ DONE → On (λ old. IsClosed old.stage → result ≡ record { code = CLOSED; accepted = 0 }) (owner_in (content_of owner.old))`
/// - ensures done: `owner_refusal (content_of owner.old) ≡ DONE → On (λ old. IsOpen old.stage → result.code ≡ DONE) (owner_in (content_of owner.old))`
/// - ensures closed: `result.code ≡ DONE → On (λ old. On (HasClosed result.accepted old) (owner_in (content_of owner.new))) (owner_in (content_of owner.old))`
/// - ensures unchanged: `result.code ≢ DONE → content_of owner.new ≡ content_of owner.old`
pub fn cubejobs_lanes_close(owner: &mut Handle) -> CloseAnswer {
    let alloc = Global;
    let code = owner.owner_code();
    if code != DONE {
        return CloseAnswer::refused(code);
    }
    let Some(content) = lift(owner, alloc) else {
        unreachable!()
    };
    let mut content = content;
    let State::Owner(lanes) = Box::replace(&mut content, State::Away) else {
        unreachable!()
    };
    let (lanes, total) = lanes.close();
    *owner = Handle::of(filled(content, State::Owner(lanes)));
    match total {
        None => CloseAnswer::refused(CLOSED),
        Some(accepted) => CloseAnswer {
            code: DONE,
            accepted,
        },
    }
}

/// Leaves the lane of a producer to its owner, and shuts the handle.
///
/// # Clauses of the proved source
///
/// - ensures barred: `lane_refusal (content_of lane.old) ≢ DONE → result ≡ lane_refusal (content_of lane.old)`
/// - ensures code: `lane_refusal (content_of lane.old) ≡ DONE → (result ≡ DONE) ⊎ (result ≡ STILL_SHARED)`
/// - ensures shut: `result ≡ DONE → content_of lane.new ≡ None`
/// - ensures unchanged: `result ≢ DONE → content_of lane.new ≡ content_of lane.old`
pub fn cubejobs_lanes_free_lane(lane: &mut Handle) -> u32 {
    let alloc = Global;
    let code = lane.lane_code();
    if code != DONE {
        return code;
    }
    let Some(content) = lift(lane, alloc) else {
        unreachable!()
    };
    let mut content = content;
    let State::Lane(side) = Box::replace(&mut content, State::Away) else {
        unreachable!()
    };
    match side.leave() {
        Ok(()) => DONE,
        Err(side) => {
            *lane = Handle::of(filled(content, State::Lane(side)));
            STILL_SHARED
        }
    }
}

/// Leaves a worker to its owner, and shuts the handle.
///
/// # Clauses of the proved source
///
/// - ensures barred: `worker_refusal (content_of worker.old) ≢ DONE → result ≡ worker_refusal (content_of worker.old)`
/// - ensures code: `worker_refusal (content_of worker.old) ≡ DONE → (result ≡ DONE) ⊎ (result ≡ STILL_SHARED)`
/// - ensures shut: `result ≡ DONE → content_of worker.new ≡ None`
/// - ensures unchanged: `result ≢ DONE → content_of worker.new ≡ content_of worker.old`
pub fn cubejobs_lanes_free_worker(worker: &mut Handle) -> u32 {
    let alloc = Global;
    let code = worker.worker_code();
    if code != DONE {
        return code;
    }
    let Some(content) = lift(worker, alloc) else {
        unreachable!()
    };
    let mut content = content;
    let State::Worker(side) = Box::replace(&mut content, State::Away) else {
        unreachable!()
    };
    match side.leave() {
        Ok(()) => DONE,
        Err(side) => {
            *worker = Handle::of(filled(content, State::Worker(side)));
            STILL_SHARED
        }
    }
}

/// Ends closed lanes, once each lane and each worker is back. Then the handle has the jobs that are
/// left.
///
/// # Clauses of the proved source
///
/// - ensures barred: `owner_refusal (content_of owner.old) ≢ DONE → result ≡ record { code = owner_refusal (content_of owner.old); number = 0 }`
/// - ensures tried: `owner_refusal (content_of owner.old) ≡ DONE → On (λ old. TriesToFinish result old (content_of owner.new)) (owner_in (content_of owner.old))`
/// - ensures unchanged: `owner_refusal (content_of owner.old) ≢ DONE → owner.new ≡ owner.old`
pub fn cubejobs_lanes_finish(owner: &mut Handle) -> FinishAnswer {
    let alloc = Global;
    let code = owner.owner_code();
    if code != DONE {
        return FinishAnswer::of(code);
    }
    let Some(content) = lift(owner, alloc) else {
        unreachable!()
    };
    let mut content = content;
    let State::Owner(lanes) = Box::replace(&mut content, State::Away) else {
        unreachable!()
    };
    let (state, answer) = lanes.finish();
    *owner = Handle::of(filled(content, state));
    answer
}
