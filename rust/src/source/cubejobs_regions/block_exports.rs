// Made from crates/cubejobs_regions/src/block_exports.rt by checks/lib/erase.py. Change that file.
//! The functions of the library that release, split, join and show blocks, under the names that C
//! declares.

use crate::source::cubejobs_regions::answer::{Answer, done, refused};
use crate::source::cubejobs_regions::block_handle::BlockHandle;
use crate::source::cubejobs_regions::codes::{BAD_DIMENSION, DONE, NOT_HALVES, NOT_OPEN, NOTHING_HELD};
use crate::source::cubejobs_regions::handle::Handle;
use crate::source::cubejobs_regions::places::machine_at;
use crate::source::cubejobs_regions::tag::region_at;
use crate::source::cubejobs_regions::{gives, halves};

/// Releases the block of a handle, which any thread may do.
///
/// # Clauses of the proved source
///
/// - requires one_machine: `AreNumbered (machine_of thread.old) region.old`
/// - ensures code: `result ≡ refusal_of_call (machine_of thread.old) (hold_of region.old)`
/// - ensures released: `result ≡ DONE → OnMachine (λ machine. IsReleased machine region.old region.new) (machine_of thread.old)`
/// - ensures none: `result ≡ DONE → hold_of region.new ≡ None`
/// - ensures machine: `machine_of thread.new ≡ machine_of thread.old`
/// - ensures unchanged: `result ≢ DONE → region.new ≡ region.old`
pub fn cubejobs_regions_release(thread: &mut Handle, region: &mut BlockHandle) -> u32 {
    if !thread.is_open() {
        return NOT_OPEN;
    }
    gives::release(machine_at(thread.ptr.get_mut()), region)
}

/// Splits the block of a handle, which keeps the lower half. The upper half goes into another
/// handle.
///
/// # Clauses of the proved source
///
/// - requires one_machine: `AreNumbered (machine_of thread.old) region.old`
/// - ensures not_open: `machine_of thread.old ≡ None → result ≡ NOT_OPEN`
/// - ensures half_barred: `IsSome (machine_of thread.old) → refusal_of_filling half.old ≢ DONE → result ≡ refusal_of_filling half.old`
/// - ensures barred: `refusal_of_filling half.old ≡ DONE → refusal_of_call (machine_of thread.old) (hold_of region.old) ≢ DONE → result ≡ refusal_of_call (machine_of thread.old) (hold_of region.old)`
/// - ensures bad_dimension: `refusal_of_filling half.old ≡ DONE → refusal_of_call (machine_of thread.old) (hold_of region.old) ≡ DONE → (hold_in region.old).region.dim ≡ 0 → result ≡ BAD_DIMENSION`
/// - ensures done: `refusal_of_filling half.old ≡ DONE → refusal_of_call (machine_of thread.old) (hold_of region.old) ≡ DONE → 0 < (hold_in region.old).region.dim → result ≡ DONE`
/// - ensures split: `result ≡ DONE → OnMachine (λ machine. IsSplit machine region.old region.new half.new) (machine_of thread.old)`
/// - ensures machine: `machine_of thread.new ≡ machine_of thread.old`
/// - ensures unchanged: `result ≢ DONE → region.new ≡ region.old`
/// - ensures half_unchanged: `result ≢ DONE → half.new ≡ half.old`
pub fn cubejobs_regions_split(
    thread: &mut Handle,
    region: &mut BlockHandle,
    half: &mut BlockHandle,
) -> u32 {
    if !thread.is_open() {
        return NOT_OPEN;
    }
    let code = half.refusal();
    if code != DONE {
        return code;
    }
    halves::split(machine_at(thread.ptr.get_mut()), region, half)
}

/// Joins the blocks of two handles, which are the lower and the upper half of one. The first handle
/// holds it then, and the second nothing.
///
/// # Clauses of the proved source
///
/// - requires one_machine: `AreNumbered (machine_of thread.old) region.old`
/// - requires half_one_machine: `AreNumbered (machine_of thread.old) half.old`
/// - ensures barred: `refusal_of_call (machine_of thread.old) (hold_of region.old) ≢ DONE → result ≡ refusal_of_call (machine_of thread.old) (hold_of region.old)`
/// - ensures half_barred: `refusal_of_call (machine_of thread.old) (hold_of region.old) ≡ DONE → refusal_of_call (machine_of thread.old) (hold_of half.old) ≢ DONE → result ≡ refusal_of_call (machine_of thread.old) (hold_of half.old)`
/// - ensures not_halves: `refusal_of_call (machine_of thread.old) (hold_of region.old) ≡ DONE → refusal_of_call (machine_of thread.old) (hold_of half.old) ≡ DONE → (AreHalves (hold_in region.old).region (hold_in half.old).region → ⊥) → result ≡ NOT_HALVES`
/// - ensures done: `refusal_of_call (machine_of thread.old) (hold_of region.old) ≡ DONE → refusal_of_call (machine_of thread.old) (hold_of half.old) ≡ DONE → AreHalves (hold_in region.old).region (hold_in half.old).region → result ≡ DONE`
/// - ensures joined: `result ≡ DONE → OnMachine (λ machine. IsJoined machine region.old half.old region.new) (machine_of thread.old)`
/// - ensures none: `result ≡ DONE → hold_of half.new ≡ None`
/// - ensures machine: `machine_of thread.new ≡ machine_of thread.old`
/// - ensures unchanged: `result ≢ DONE → region.new ≡ region.old`
/// - ensures half_unchanged: `result ≢ DONE → half.new ≡ half.old`
pub fn cubejobs_regions_join(
    thread: &mut Handle,
    region: &mut BlockHandle,
    half: &mut BlockHandle,
) -> u32 {
    if !thread.is_open() {
        return NOT_OPEN;
    }
    halves::join(machine_at(thread.ptr.get_mut()), region, half)
}

/// Returns the block that a handle holds.
///
/// # Clauses of the proved source
///
/// - ensures nothing: `hold_of region.now ≡ None → result.code ≡ NOTHING_HELD`
/// - ensures done: `IsSome (hold_of region.now) → result.code ≡ DONE`
/// - ensures region: `result.code ≡ DONE → region_of result ≡ (hold_in region.now).region`
/// - ensures none: `result.code ≢ DONE → NamesNone result`
/// - ensures quiet: `result.contended ≡ 0`
pub fn cubejobs_regions_block(region: &BlockHandle) -> Answer {
    if !region.is_held() {
        return refused(NOTHING_HELD, 0);
    }
    done(region_at(region.tag))
}
