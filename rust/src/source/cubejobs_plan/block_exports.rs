// Made from crates/cubejobs_plan/src/block_exports.rt by checks/lib/erase.py. Change that file.
//! The functions of the library that take blocks out of service and put them back, under the names
//! that C declares.

use crate::source::cubejobs_plan::codes::{DONE, NOT_OPEN, OUT_OF_RANGE, WRONG_STATE};
use crate::source::cubejobs_plan::handle::Handle;
use crate::source::cubejobs_plan::serving::{occupy, vacate};
use crate::source::cube_shape::Region;

/// Takes a block out of service.
///
/// # Clauses of the proved source
///
/// - ensures not_open: `core_of plan.old ≡ None → result ≡ NOT_OPEN`
/// - ensures out_of_range: `OnCore (λ core. HasBlock (block_at base dim) core → ⊥) (core_of plan.old) → result ≡ OUT_OF_RANGE`
/// - ensures tried: `OnCore (HasBlock (block_at base dim)) (core_of plan.old) → (result ≡ DONE) ⊎ (result ≡ WRONG_STATE)`
/// - ensures wrong_state: `result ≡ WRONG_STATE → OnCore (IsInUse (block_at base dim)) (core_of plan.old)`
/// - ensures occupied: `result ≡ DONE → OnCores (IsOccupied (block_at base dim)) (core_of plan.old) (core_of plan.new)`
/// - ensures unchanged: `result ≢ DONE → plan.new ≡ plan.old`
pub fn cubejobs_plan_occupy(plan: &mut Handle, base: u64, dim: u32) -> u32 {
    if !plan.is_open() {
        return NOT_OPEN;
    }
    occupy(&mut plan.at.get_mut().scheduler, Region { base, dim })
}

/// Puts exactly a block that was taken out of service back into it.
///
/// # Clauses of the proved source
///
/// - ensures not_open: `core_of plan.old ≡ None → result ≡ NOT_OPEN`
/// - ensures out_of_range: `OnCore (λ core. HasBlock (block_at base dim) core → ⊥) (core_of plan.old) → result ≡ OUT_OF_RANGE`
/// - ensures tried: `OnCore (HasBlock (block_at base dim)) (core_of plan.old) → (result ≡ DONE) ⊎ (result ≡ WRONG_STATE)`
/// - ensures wrong_state: `result ≡ WRONG_STATE → OnCore (IsNotOut (block_at base dim)) (core_of plan.old)`
/// - ensures vacated: `result ≡ DONE → OnCores (IsVacated (block_at base dim)) (core_of plan.old) (core_of plan.new)`
/// - ensures unchanged: `result ≢ DONE → plan.new ≡ plan.old`
pub fn cubejobs_plan_vacate(plan: &mut Handle, base: u64, dim: u32) -> u32 {
    if !plan.is_open() {
        return NOT_OPEN;
    }
    vacate(&mut plan.at.get_mut().scheduler, Region { base, dim })
}
