// Made from crates/cubejobs_regions/src/take_exports.rt by checks/lib/erase.py. Change that file.
//! The functions of the library that take blocks, under the names that C declares.

use crate::source::cubejobs_regions::answer::{Answer, refused};
use crate::source::cubejobs_regions::block_handle::BlockHandle;
use crate::source::cubejobs_regions::codes::{BAD_BASE, BAD_DIMENSION, DONE, NO_ROOM, NOT_NOW, TAKEN};
use crate::source::cubejobs_regions::handle::Handle;
use crate::source::cubejobs_regions::places::machine_at;
use crate::source::cubejobs_regions::takes;
use crate::source::cube_shape::Region;

/// Takes a block of dimension `k`, by a search that passes by words in which none was found of
/// late. So a refusal says nothing of what is free.
///
/// # Clauses of the proved source
///
/// - ensures bad_dimension: `refusal_of_filling region.old ≡ DONE → OnMachine (λ machine. dim_of_machine machine < k) (machine_of thread.old) → result.code ≡ BAD_DIMENSION`
/// - ensures tried: `refusal_of_filling region.old ≡ DONE → OnMachine (λ machine. k ≤ dim_of_machine machine) (machine_of thread.old) → (result.code ≡ DONE) ⊎ (result.code ≡ NOT_NOW)`
/// - ensures answered: `IsAnsweredBy take_steps (machine_of thread.old) region.old region.new result`
/// - ensures dimension: `result.code ≡ DONE → result.dim ≡ k`
/// - ensures machine: `machine_of thread.new ≡ machine_of thread.old`
/// - ensures unchanged: `result.code ≢ DONE → region.new ≡ region.old`
/// - ensures quiet: `result.contended ≡ 0`
pub fn cubejobs_regions_take(
    thread: &mut Handle,
    region: &mut BlockHandle,
    k: u32,
) -> Answer {
    let code = takes::refusal(thread, region);
    if code != DONE {
        return refused(code, 0);
    }
    takes::take(machine_at(thread.ptr.get_mut()), region, k)
}

/// Takes a block of dimension `k`. Looks at each word before it refuses.
///
/// If it gave up no word, it found a bit of each block of this dimension set. The handle keeps the
/// seat of a refused take, and so what its steps found.
///
/// # Clauses of the proved source
///
/// - ensures bad_dimension: `refusal_of_filling region.old ≡ DONE → OnMachine (λ machine. dim_of_machine machine < k) (machine_of thread.old) → result.code ≡ BAD_DIMENSION`
/// - ensures tried: `refusal_of_filling region.old ≡ DONE → OnMachine (λ machine. k ≤ dim_of_machine machine) (machine_of thread.old) → (result.code ≡ DONE) ⊎ (result.code ≡ NO_ROOM) ⊎ (result.code ≡ NOT_NOW)`
/// - ensures answered: `IsAnsweredBy exact_steps (machine_of thread.old) region.old region.new result`
/// - ensures dimension: `result.code ≡ DONE → result.dim ≡ k`
/// - ensures found: `(result.code ≡ NO_ROOM) ⊎ (result.code ≡ NOT_NOW) → OnMachine (λ machine. FoundNoRoom (dim_of_machine machine) k result.contended (trail_of region.new)) (machine_of thread.old)`
/// - ensures busy: `result.code ≡ NOT_NOW → result.contended ≡ 1`
/// - ensures machine: `machine_of thread.new ≡ machine_of thread.old`
pub fn cubejobs_regions_take_exact(
    thread: &mut Handle,
    region: &mut BlockHandle,
    k: u32,
) -> Answer {
    let code = takes::refusal(thread, region);
    if code != DONE {
        return refused(code, 0);
    }
    takes::take_exact(machine_at(thread.ptr.get_mut()), region, k)
}

/// Takes the block of dimension `k` that begins at a processor.
///
/// If it gave up no word, it found a part of the block in use. The handle keeps the seat of a
/// refused take, and so what its steps found.
///
/// # Clauses of the proved source
///
/// - ensures bad_dimension: `refusal_of_filling region.old ≡ DONE → OnMachine (λ machine. dim_of_machine machine < k) (machine_of thread.old) → result.code ≡ BAD_DIMENSION`
/// - ensures bad_base: `refusal_of_filling region.old ≡ DONE → OnMachine (λ machine. (k ≤ dim_of_machine machine) × (HasBlock base k machine → ⊥)) (machine_of thread.old) → result.code ≡ BAD_BASE`
/// - ensures tried: `refusal_of_filling region.old ≡ DONE → OnMachine (HasBlock base k) (machine_of thread.old) → (result.code ≡ DONE) ⊎ (result.code ≡ TAKEN) ⊎ (result.code ≡ NOT_NOW)`
/// - ensures answered: `IsAnsweredBy block_steps (machine_of thread.old) region.old region.new result`
/// - ensures region: `result.code ≡ DONE → region_of result ≡ region_at base k`
/// - ensures found: `(result.code ≡ TAKEN) ⊎ (result.code ≡ NOT_NOW) → OnMachine (λ machine. FoundInUse (dim_of_machine machine) (region_at base k) result.contended (trail_of region.new)) (machine_of thread.old)`
/// - ensures busy: `result.code ≡ NOT_NOW → result.contended ≡ 1`
/// - ensures machine: `machine_of thread.new ≡ machine_of thread.old`
pub fn cubejobs_regions_take_at(
    thread: &mut Handle,
    region: &mut BlockHandle,
    base: u64,
    k: u32,
) -> Answer {
    let code = takes::refusal(thread, region);
    if code != DONE {
        return refused(code, 0);
    }
    takes::take_at(
        machine_at(thread.ptr.get_mut()),
        region,
        Region { base, dim: k },
    )
}
