// Made from crates/cubejobs_regions/src/occupancy.rt by checks/lib/erase.py. Change that file.
//! How much of a machine is free.

use crate::source::cubejobs_regions::answer::OccupancyAnswer;
use crate::source::cubejobs_regions::codes::{DONE, NOT_OPEN};
use crate::source::cubejobs_regions::handle::Handle;
use crate::source::cubejobs_regions::machine::Machine;
use crate::source::cubejobs_regions::places::machine_at;
use crate::source::bitmap_occupancy::{FREE_PLACES, Occupancy, occupancy};
use crate::source::bitmap_tree::BlankSeat;

impl OccupancyAnswer {
    // Makes the answer of a refused call.
    fn refused(code: u32) -> OccupancyAnswer {
        OccupancyAnswer {
            code,
            largest: 0,
            has_free: false,
            held: 0,
            free: [0; FREE_PLACES],
        }
    }
}

// Makes the answer of a count.
fn answer_of(found: Occupancy) -> OccupancyAnswer {
    let free = found.free;
    match found.largest {
        Some(largest) => OccupancyAnswer {
            code: DONE,
            largest,
            has_free: true,
            held: found.held,
            free,
        },
        None => OccupancyAnswer {
            code: DONE,
            largest: 0,
            has_free: false,
            held: found.held,
            free,
        },
    }
}

// Counts what is free and held in a machine. Returns the seat of the loads too.
fn count(machine: &Machine) -> (OccupancyAnswer, BlankSeat) {
    let (found, seat) = occupancy(machine.tree());
    (answer_of(found), seat)
}

/// Counts the free blocks of each dimension and the processors in held blocks, and finds the
/// largest free dimension. Reads each word once. The handle keeps the seat of the call, and so what
/// its loads found.
///
/// # Clauses of the proved source
///
/// - ensures not_open: `machine_of thread.old ≡ None → result.code ≡ NOT_OPEN`
/// - ensures done: `IsSome (machine_of thread.old) → result.code ≡ DONE`
/// - ensures counted: `IsSome (machine_of thread.old) → OnMachine (λ machine. IsCounted machine result thread.new) (machine_of thread.old)`
/// - ensures no_largest: `result.has_free ≡ false → result.largest ≡ 0`
/// - ensures nothing: `result.code ≢ DONE → CountsNone result`
/// - ensures machine: `machine_of thread.new ≡ machine_of thread.old`
/// - ensures unchanged: `result.code ≢ DONE → thread.new ≡ thread.old`
pub fn cubejobs_regions_occupancy(thread: &mut Handle) -> OccupancyAnswer {
    if !thread.is_open() {
        return OccupancyAnswer::refused(NOT_OPEN);
    }
    let (answer, seat) = count(machine_at(thread.ptr.get_mut()));
    thread.keep(seat);
    answer
}
