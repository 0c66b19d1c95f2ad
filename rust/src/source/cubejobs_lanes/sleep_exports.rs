// Made from crates/cubejobs_lanes/src/sleep_exports.rt by checks/lib/erase.py. Change that file.
//! The calls by which workers of lanes sleep and wake each other, under the names that C declares.

use crate::source::cubejobs_lanes::codes::{AGAIN, ASLEEP, BAD_LANE, DONE, ENDED, NO_WORKER, NOT_OPEN, OTHER_KIND, PARK};
use crate::source::cubejobs_lanes::find_answer::{FindAnswer, NumberAnswer, WakeAnswer, number_of};
use crate::source::cubejobs_lanes::handle::Handle;
use crate::source::cubejobs_lanes::sleeper_side::SleeperSide;
use crate::source::cubejobs_lanes::state::State;
use crate::source::lanes::Found;
use core::mem::{forget, replace};

// Returns the number of lanes of a worker, or why the call is refused.
fn lanes_of(worker: &mut Handle) -> Result<u32, u32> {
    if !worker.is_open() {
        return Err(NOT_OPEN);
    }
    match worker.ptr.get_mut() {
        State::Worker(side) => Ok(side.lane_count()),
        State::Sleeper(side) => Ok(side.lane_count()),
        _ => Err(OTHER_KIND),
    }
}

// Returns the worker of a handle as one that may lie down.
fn sleeper_of(state: State) -> SleeperSide {
    match state {
        State::Worker(side) => side.into_sleeper(),
        State::Sleeper(side) => side,
        _ => unreachable!(),
    }
}

// Returns the content of a worker's handle once the worker has found this.
fn state_after(side: SleeperSide, found: Found) -> State {
    match found {
        Found::Job(_, _, _) => State::Worker(side.into_worker()),
        Found::Ended => State::Worker(side.into_worker()),
        Found::Park => State::Sleeper(side),
        Found::Again => State::Sleeper(side),
    }
}

/// Takes a job, or lets the worker lie down.
///
/// # Clauses of the proved source
///
/// - ensures barred: `resting_refusal (content_of worker.old) ≢ DONE → result ≡ no_find (resting_refusal (content_of worker.old)) NO_WORKER`
/// - ensures bad_lane: `resting_refusal (content_of worker.old) ≡ DONE → On (λ old. lanes_at old ≤ from) (resting_in (content_of worker.old)) → result ≡ no_find BAD_LANE NO_WORKER`
/// - ensures found: `resting_refusal (content_of worker.old) ≡ DONE → On (λ old. from < lanes_at old → On (HasFound from result old) (resting_in (content_of worker.new))) (resting_in (content_of worker.old))`
/// - ensures awake: `(result.code ≡ DONE) ⊎ (result.code ≡ ENDED) → worker_refusal (content_of worker.new) ≡ DONE`
/// - ensures asleep: `(result.code ≡ PARK) ⊎ (result.code ≡ AGAIN) → worker_refusal (content_of worker.new) ≡ ASLEEP`
/// - ensures barred_unchanged: `resting_refusal (content_of worker.old) ≢ DONE → worker.new ≡ worker.old`
/// - ensures unchanged: `On (λ old. lanes_at old ≤ from) (resting_in (content_of worker.old)) → worker.new ≡ worker.old`
pub fn cubejobs_lanes_find(worker: &mut Handle, from: u32) -> FindAnswer {
    match lanes_of(worker) {
        Err(code) => return FindAnswer::none(code, NO_WORKER),
        Ok(lanes) => {
            if from >= lanes {
                return FindAnswer::none(BAD_LANE, NO_WORKER);
            }
        }
    }
    let state = worker.ptr.get_mut();
    let mut side = sleeper_of(replace(state, State::Away));
    let finding = side.find(from);
    forget(replace(state, state_after(side, finding.found)));
    FindAnswer::of(finding.found, number_of(finding.woken))
}

/// Takes the token of a worker that parks.
///
/// # Clauses of the proved source
///
/// - ensures barred: `resting_refusal (content_of worker.old) ≢ DONE → result ≡ resting_refusal (content_of worker.old)`
/// - ensures code: `resting_refusal (content_of worker.old) ≡ DONE → (result ≡ DONE) ⊎ (result ≡ PARK)`
/// - ensures parks: `result ≡ PARK → On Parks (resting_in (content_of worker.new))`
/// - ensures awake: `result ≡ DONE → On (λ new. IsAwake new.at) (resting_in (content_of worker.new))`
/// - ensures same: `resting_refusal (content_of worker.old) ≡ DONE → On (λ old. On (IsAfterToken old) (resting_in (content_of worker.new))) (resting_in (content_of worker.old))`
/// - ensures kind: `worker_refusal (content_of worker.new) ≡ worker_refusal (content_of worker.old)`
/// - ensures unchanged: `resting_refusal (content_of worker.old) ≢ DONE → worker.new ≡ worker.old`
pub fn cubejobs_lanes_awake(worker: &mut Handle) -> u32 {
    if !worker.is_open() {
        return NOT_OPEN;
    }
    match worker.ptr.get_mut() {
        State::Worker(_) => DONE,
        State::Sleeper(side) => { if side.awake() { DONE } else { PARK } }
        _ => OTHER_KIND,
    }
}

/// Returns the number of a worker among those of its lanes.
///
/// # Clauses of the proved source
///
/// - ensures barred: `resting_refusal (content_of worker.old) ≢ DONE → result ≡ record { code = resting_refusal (content_of worker.old); number = 0 }`
/// - ensures number: `resting_refusal (content_of worker.old) ≡ DONE → On (λ old. result ≡ record { code = DONE; number = old.known.number }) (resting_in (content_of worker.old))`
/// - ensures unchanged: `worker.new ≡ worker.old`
pub fn cubejobs_lanes_worker_number(worker: &mut Handle) -> NumberAnswer {
    if !worker.is_open() {
        return NumberAnswer::refused(NOT_OPEN);
    }
    let number = match worker.ptr.get_mut() {
        State::Worker(side) => side.number(),
        State::Sleeper(side) => side.number(),
        _ => return NumberAnswer::refused(OTHER_KIND),
    };
    NumberAnswer { code: DONE, number }
}

/// Gives the token to a worker that sleeps, if one is to be woken after the lane's last job.
///
/// # Clauses of the proved source
///
/// - ensures barred: `lane_refusal (content_of lane.old) ≢ DONE → result ≡ record { code = lane_refusal (content_of lane.old); worker = 0 }`
/// - ensures woken: `lane_refusal (content_of lane.old) ≡ DONE → On (λ old. On (HasWoken result old) (lane_in (content_of lane.new))) (lane_in (content_of lane.old))`
/// - ensures unchanged: `lane_refusal (content_of lane.old) ≢ DONE → lane.new ≡ lane.old`
pub fn cubejobs_lanes_wake(lane: &mut Handle) -> WakeAnswer {
    if !lane.is_open() {
        return WakeAnswer::none(NOT_OPEN);
    }
    match lane.ptr.get_mut() {
        State::Lane(side) => WakeAnswer::of(side.wake()),
        _ => WakeAnswer::none(OTHER_KIND),
    }
}
