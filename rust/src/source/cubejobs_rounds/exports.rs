// Made from crates/cubejobs_rounds/src/exports.rt by checks/lib/erase.py. Change that file.
//! The functions of the library, under the names that C declares.

use crate::source::cubejobs_rounds::answers::{CountAnswer, MessageAnswer, NO_RANK, StepAnswer, number_of};
use crate::source::cubejobs_rounds::codes::{BAD_DIMENSION, BAD_NUMBER, BAD_RANK, BAD_ROOT, BAD_ROUND, BAD_SHAPE, DONE};
use crate::source::cubejobs_rounds::shapes::{SHAPES, shape_at};
use crate::source::collectives::{DIM_LIMIT, message_at, step};

// Returns `DONE` if the numbers name a collective and its root. Otherwise returns the fault, the
// first of `BAD_SHAPE`, `BAD_DIMENSION` and `BAD_ROOT` that applies.
fn fault_of(shape: u32, k: u32, root: u64) -> u32 {
    if shape >= SHAPES {
        return BAD_SHAPE;
    }
    if k >= DIM_LIMIT {
        return BAD_DIMENSION;
    }
    if root >= 1 << k {
        return BAD_ROOT;
    }
    DONE
}

/// Returns the number of rounds and of messages of a collective on `2^k` places.
///
/// The code is `DONE`, or the first of these that applies: `BAD_SHAPE`, `BAD_DIMENSION` if `k` is
/// not below `DIM_LIMIT`.
///
/// # Clauses of the proved source
///
/// - ensures bad_shape: `SHAPES ≤ shape → result.code ≡ BAD_SHAPE`
/// - ensures bad_dimension: `shape < SHAPES → DIM_LIMIT ≤ k → result.code ≡ BAD_DIMENSION`
/// - ensures done: `shape < SHAPES → k < DIM_LIMIT → result.code ≡ DONE`
/// - ensures messages: `result.code ≡ DONE → result.messages ≡ message_count (shape_of shape) k`
/// - ensures rounds: `result.code ≡ DONE → result.rounds ≡ k`
/// - ensures nothing: `result.code ≢ DONE → (result.rounds ≡ 0) × (result.messages ≡ 0)`
pub fn cubejobs_message_count(shape: u32, k: u32) -> CountAnswer {
    let code = fault_of(shape, k, 0);
    if code != DONE {
        return CountAnswer {
            code,
            rounds: 0,
            messages: 0,
        };
    }
    let tally = shape_at(shape).tally(k);
    CountAnswer {
        code: DONE,
        rounds: tally.rounds,
        messages: tally.messages,
    }
}

/// Returns message number `i`, from 0 on, of a collective on `2^k` places. Messages are counted
/// round after round. An all-reduce and both scans ignore the root.
///
/// The code is `DONE`, or the first of these that applies:
/// - `BAD_SHAPE`;
/// - `BAD_DIMENSION`;
/// - `BAD_ROOT` if the root is not below `2^k`;
/// - `BAD_NUMBER` if `i` is not below the number of messages.
///
/// # Clauses of the proved source
///
/// - ensures bad_shape: `SHAPES ≤ shape → result.code ≡ BAD_SHAPE`
/// - ensures bad_dimension: `shape < SHAPES → DIM_LIMIT ≤ k → result.code ≡ BAD_DIMENSION`
/// - ensures bad_root: `shape < SHAPES → k < DIM_LIMIT → 2 ^ k ≤ root → result.code ≡ BAD_ROOT`
/// - ensures bad_number: `IsCollective shape k root → message_count (shape_of shape) k ≤ i → result.code ≡ BAD_NUMBER`
/// - ensures done: `IsCollective shape k root → i < message_count (shape_of shape) k → result.code ≡ DONE`
/// - ensures message: `result.code ≡ DONE → IsNumber (shape_of shape) k root i (message result.round result.from result.to)`
/// - ensures edge: `result.code ≡ DONE → IsAlongAnEdge k (message result.round result.from result.to)`
/// - ensures nothing: `result.code ≢ DONE → (result.round ≡ 0) × (result.from ≡ NO_RANK) × (result.to ≡ NO_RANK)`
pub fn cubejobs_message(shape: u32, k: u32, root: u64, i: u64) -> MessageAnswer {
    let fault = fault_of(shape, k, root);
    if fault != DONE {
        return no_message(fault);
    }
    let which = shape_at(shape);
    if i >= which.tally(k).messages {
        return no_message(BAD_NUMBER);
    }
    let sent = message_at(which, k, root, i);
    MessageAnswer {
        code: DONE,
        round: sent.round,
        from: sent.from,
        to: sent.to,
    }
}

// Makes the answer of a refused call for a message.
fn no_message(code: u32) -> MessageAnswer {
    MessageAnswer {
        code,
        round: 0,
        from: NO_RANK,
        to: NO_RANK,
    }
}

/// Returns the partners of a rank in a round of a collective on `2^k` places, as the messages of
/// `cubejobs_message` have them. `NO_RANK` is no partner. An all-reduce and both scans ignore the
/// root.
///
/// The code is `DONE`, or the first of these that applies:
/// - `BAD_SHAPE`;
/// - `BAD_DIMENSION`;
/// - `BAD_ROOT` if the root is not below `2^k`;
/// - `BAD_RANK` if the rank is not below `2^k`;
/// - `BAD_ROUND` if the round is not below `k`.
///
/// # Clauses of the proved source
///
/// - ensures bad_shape: `SHAPES ≤ shape → result.code ≡ BAD_SHAPE`
/// - ensures bad_dimension: `shape < SHAPES → DIM_LIMIT ≤ k → result.code ≡ BAD_DIMENSION`
/// - ensures bad_root: `shape < SHAPES → k < DIM_LIMIT → 2 ^ k ≤ root → result.code ≡ BAD_ROOT`
/// - ensures bad_rank: `IsCollective shape k root → 2 ^ k ≤ rank → result.code ≡ BAD_RANK`
/// - ensures bad_round: `IsCollective shape k root → rank < 2 ^ k → k ≤ round → result.code ≡ BAD_ROUND`
/// - ensures done: `IsCollective shape k root → rank < 2 ^ k → round < k → result.code ≡ DONE`
/// - ensures sends: `result.code ≡ DONE → (to : ℕ) → (rank_in result.to ≡ Some to) ↔ IsListed (shape_of shape) k root (message round rank to)`
/// - ensures receives: `result.code ≡ DONE → (from : ℕ) → (rank_in result.from ≡ Some from) ↔ IsListed (shape_of shape) k root (message round from rank)`
/// - ensures to_edge: `result.code ≡ DONE → (to : ℕ) → rank_in result.to ≡ Some to → IsAlongAnEdge k (message round rank to)`
/// - ensures from_edge: `result.code ≡ DONE → (from : ℕ) → rank_in result.from ≡ Some from → IsAlongAnEdge k (message round from rank)`
/// - ensures nothing: `result.code ≢ DONE → (result.to ≡ NO_RANK) × (result.from ≡ NO_RANK)`
pub fn cubejobs_step(shape: u32, k: u32, root: u64, rank: u64, round: u32) -> StepAnswer {
    let fault = fault_of(shape, k, root);
    if fault != DONE {
        return no_step(fault);
    }
    if rank >= 1 << k {
        return no_step(BAD_RANK);
    }
    if round >= k {
        return no_step(BAD_ROUND);
    }
    let partners = step(shape_at(shape), k, root, rank, round);
    StepAnswer {
        code: DONE,
        to: number_of(partners.to),
        from: number_of(partners.from),
    }
}

// Makes the answer of a refused call for a step.
fn no_step(code: u32) -> StepAnswer {
    StepAnswer {
        code,
        to: NO_RANK,
        from: NO_RANK,
    }
}
