// Made from crates/cubejobs_lanes/src/job_exports.rt by checks/lib/erase.py. Change that file.
//! The calls of producers and workers, under the names that C declares.

use crate::source::cubejobs_lanes::answers::{JobAnswer, LookAnswer, SubmitAnswer};
use crate::source::cubejobs_lanes::codes::{ASLEEP, BAD_LANE, DONE, NOT_OPEN, OTHER_KIND};
use crate::source::cubejobs_lanes::handle::Handle;
use crate::source::cubejobs_lanes::state::State;

/// Submits a job to the lane of a producer.
///
/// # Clauses of the proved source
///
/// - ensures barred: `lane_refusal (content_of lane.old) ≢ DONE → result ≡ record { code = lane_refusal (content_of lane.old); seq = 0 }`
/// - ensures submitted: `lane_refusal (content_of lane.old) ≡ DONE → On (λ old. On (HasSubmitted payload dim result old) (lane_in (content_of lane.new))) (lane_in (content_of lane.old))`
/// - ensures unchanged: `lane_refusal (content_of lane.old) ≢ DONE → lane.new ≡ lane.old`
pub fn cubejobs_lanes_submit(lane: &mut Handle, payload: u64, dim: u32) -> SubmitAnswer {
    if !lane.is_open() {
        return SubmitAnswer::refused(NOT_OPEN);
    }
    match lane.ptr.get_mut() {
        State::Lane(side) => SubmitAnswer::of(side.submit(payload, dim)),
        _ => SubmitAnswer::refused(OTHER_KIND),
    }
}

/// Takes a job from a lane.
///
/// # Clauses of the proved source
///
/// - ensures barred: `worker_refusal (content_of worker.old) ≢ DONE → result ≡ no_job (worker_refusal (content_of worker.old))`
/// - ensures bad_lane: `worker_refusal (content_of worker.old) ≡ DONE → On (λ old. lane_count old ≤ lane) (worker_in (content_of worker.old)) → result ≡ no_job BAD_LANE`
/// - ensures taken: `worker_refusal (content_of worker.old) ≡ DONE → On (λ old. lane < lane_count old → On (HasTaken lane result old) (worker_in (content_of worker.new))) (worker_in (content_of worker.old))`
/// - ensures barred_unchanged: `worker_refusal (content_of worker.old) ≢ DONE → worker.new ≡ worker.old`
/// - ensures unchanged: `On (λ old. lane_count old ≤ lane) (worker_in (content_of worker.old)) → worker.new ≡ worker.old`
pub fn cubejobs_lanes_take(worker: &mut Handle, lane: u32) -> JobAnswer {
    if !worker.is_open() {
        return JobAnswer::none(NOT_OPEN);
    }
    match worker.ptr.get_mut() {
        State::Worker(side) => {
            if lane >= side.lane_count() {
                return JobAnswer::none(BAD_LANE);
            }
            JobAnswer::of(lane, side.take(lane))
        }
        State::Sleeper(_) => JobAnswer::none(ASLEEP),
        _ => JobAnswer::none(OTHER_KIND),
    }
}

/// Takes a job from the first lane that has one, in a round of all lanes from a lane on.
///
/// # Clauses of the proved source
///
/// - ensures barred: `worker_refusal (content_of worker.old) ≢ DONE → result ≡ no_job (worker_refusal (content_of worker.old))`
/// - ensures bad_lane: `worker_refusal (content_of worker.old) ≡ DONE → On (λ old. lane_count old ≤ from) (worker_in (content_of worker.old)) → result ≡ no_job BAD_LANE`
/// - ensures taken: `worker_refusal (content_of worker.old) ≡ DONE → On (λ old. from < lane_count old → On (HasTakenAny from result old) (worker_in (content_of worker.new))) (worker_in (content_of worker.old))`
/// - ensures barred_unchanged: `worker_refusal (content_of worker.old) ≢ DONE → worker.new ≡ worker.old`
/// - ensures unchanged: `On (λ old. lane_count old ≤ from) (worker_in (content_of worker.old)) → worker.new ≡ worker.old`
pub fn cubejobs_lanes_take_any(worker: &mut Handle, from: u32) -> JobAnswer {
    if !worker.is_open() {
        return JobAnswer::none(NOT_OPEN);
    }
    match worker.ptr.get_mut() {
        State::Worker(side) => {
            if from >= side.lane_count() {
                return JobAnswer::none(BAD_LANE);
            }
            JobAnswer::of_any(side.take_any(from))
        }
        State::Sleeper(_) => JobAnswer::none(ASLEEP),
        _ => JobAnswer::none(OTHER_KIND),
    }
}

/// Looks for a job in a lane, without taking it.
///
/// # Clauses of the proved source
///
/// - ensures barred: `worker_refusal (content_of worker.old) ≢ DONE → result ≡ record { code = worker_refusal (content_of worker.old); jobs = 0 }`
/// - ensures bad_lane: `worker_refusal (content_of worker.old) ≡ DONE → On (λ old. lane_count old ≤ lane) (worker_in (content_of worker.old)) → result ≡ record { code = BAD_LANE; jobs = 0 }`
/// - ensures looked: `worker_refusal (content_of worker.old) ≡ DONE → On (λ old. lane < lane_count old → On (HasLooked lane result old) (worker_in (content_of worker.new))) (worker_in (content_of worker.old))`
/// - ensures barred_unchanged: `worker_refusal (content_of worker.old) ≢ DONE → worker.new ≡ worker.old`
/// - ensures unchanged: `On (λ old. lane_count old ≤ lane) (worker_in (content_of worker.old)) → worker.new ≡ worker.old`
pub fn cubejobs_lanes_look(worker: &mut Handle, lane: u32) -> LookAnswer {
    if !worker.is_open() {
        return LookAnswer::none(NOT_OPEN);
    }
    match worker.ptr.get_mut() {
        State::Worker(side) => {
            if lane >= side.lane_count() {
                return LookAnswer::none(BAD_LANE);
            }
            LookAnswer::of(side.look(lane))
        }
        State::Sleeper(_) => LookAnswer::none(ASLEEP),
        _ => LookAnswer::none(OTHER_KIND),
    }
}
