// Made from crates/cubejobs_regions/src/machine_exports.rt by checks/lib/erase.py. Change that file.
//! The functions of the library that open, share and free a machine, under the names that C
//! declares.

use crate::source::cubejobs_regions::codes::{
    BAD_DIMENSION, BAD_VERSION, DONE, NOT_OPEN, OUT_OF_MEMORY, STILL_HELD, VERSION,
};
use crate::source::cubejobs_regions::ends;
use crate::source::cubejobs_regions::handle::Handle;
use crate::source::cubejobs_regions::places::lift;
use crate::source::cubejobs_regions::state::State;
use crate::source::cube_shape::MAX_BITMAP_DIM;
use crate::source::kit::alloc::Global;

/// Opens a machine of dimension `n` in which nothing is held. `version` is that of the caller's
/// header. `number` is another one for each machine of the program.
///
/// # Clauses of the proved source
///
/// - ensures bad_version: `version ≢ VERSION → result ≡ BAD_VERSION`
/// - ensures barred: `version ≡ VERSION → refusal_of_opening machine.old ≢ DONE → result ≡ refusal_of_opening machine.old`
/// - ensures bad_dimension: `version ≡ VERSION → refusal_of_opening machine.old ≡ DONE → MAX_BITMAP_DIM < n → result ≡ BAD_DIMENSION`
/// - ensures else_memory: `version ≡ VERSION → refusal_of_opening machine.old ≡ DONE → n ≤ MAX_BITMAP_DIM → (result ≡ DONE) ⊎ (result ≡ OUT_OF_MEMORY)`
/// - ensures new: `result ≡ DONE → OnMachine (IsNew n number) (machine_of machine.new)`
/// - ensures unchanged: `result ≢ DONE → machine.new ≡ machine.old`
pub fn cubejobs_regions_open_version(machine: &mut Handle,
    version: u32,
    n: u32,
    number: u64,
) -> u32 {
    let alloc = Global;
    if version != VERSION {
        return BAD_VERSION;
    }
    let code = machine.refusal();
    if code != DONE {
        return code;
    }
    if n > MAX_BITMAP_DIM {
        return BAD_DIMENSION;
    }
    match ends::machine_of(alloc, n, number) {
        None => OUT_OF_MEMORY,
        Some(place) => {
            machine.put(place);
            DONE
        }
    }
}

/// Gives another thread a handle of the machine. Its searches begin at the next of the starts.
///
/// # Clauses of the proved source
///
/// - ensures barred: `refusal_of_opening other.old ≢ DONE → result ≡ refusal_of_opening other.old`
/// - ensures not_open: `refusal_of_opening other.old ≡ DONE → machine_of thread.old ≡ None → result ≡ NOT_OPEN`
/// - ensures else_memory: `refusal_of_opening other.old ≡ DONE → IsSome (machine_of thread.old) → (result ≡ DONE) ⊎ (result ≡ OUT_OF_MEMORY)`
/// - ensures shared: `result ≡ DONE → OnMachine (λ machine. OnMachine (IsSameMachine machine) (machine_of other.new)) (machine_of thread.old)`
/// - ensures machine: `IsSome (machine_of thread.old) → OnMachine (λ machine. OnMachine (IsSameMachine machine) (machine_of thread.new)) (machine_of thread.old)`
/// - ensures shut: `machine_of thread.old ≡ None → thread.new ≡ thread.old`
/// - ensures unchanged: `result ≢ DONE → other.new ≡ other.old`
pub fn cubejobs_regions_share(thread: &mut Handle,
    other: &mut Handle,
) -> u32 {
    let alloc = Global;
    let code = other.refusal();
    if code != DONE {
        return code;
    }
    let Some(place) = lift(thread, alloc) else {
        return NOT_OPEN;
    };
    let (place, another) = ends::share(alloc, place);
    thread.put(place);
    match another {
        None => OUT_OF_MEMORY,
        Some(another) => {
            other.put(another);
            DONE
        }
    }
}

/// Frees a handle. The last one of a machine frees the machine, unless a block of it is held.
///
/// The last one looks by a take of the whole machine. The handle keeps the seat of the call, and so
/// what its steps found.
///
/// # Clauses of the proved source
///
/// - ensures not_open: `machine_of thread.old ≡ None → result ≡ NOT_OPEN`
/// - ensures tried: `IsSome (machine_of thread.old) → (result ≡ DONE) ⊎ (result ≡ STILL_HELD)`
/// - ensures free: `result ≡ DONE → OnMachine (λ machine. IsSole machine → FoundFree (dim_of_machine machine) (last_trail thread.new)) (machine_of thread.old)`
/// - ensures shut: `result ≡ DONE → machine_of thread.new ≡ None`
/// - ensures held: `result ≡ STILL_HELD → OnMachine (λ machine. FoundHeld (dim_of_machine machine) (last_trail thread.new)) (machine_of thread.old)`
/// - ensures kept: `result ≡ STILL_HELD → OnMachine (λ machine. OnMachine (IsKept machine) (machine_of thread.new)) (machine_of thread.old)`
/// - ensures unchanged: `result ≡ NOT_OPEN → thread.new ≡ thread.old`
pub fn cubejobs_regions_free(thread: &mut Handle) -> u32 {
    let alloc = Global;
    let Some(place) = lift(thread, alloc) else {
        return NOT_OPEN;
    };
    match ends::free(place) {
        Ok(None) => DONE,
        Ok(Some(seat)) => {
            thread.keep(seat);
            DONE
        }
        Err((place, seat)) => {
            thread.put(place);
            thread.keep(seat);
            STILL_HELD
        }
    }
}
