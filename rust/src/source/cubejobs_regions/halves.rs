// Made from crates/cubejobs_regions/src/halves.rt by checks/lib/erase.py. Change that file.
//! The block of a handle is split, and the halves in two handles are joined.

use crate::source::cubejobs_regions::block_handle::BlockHandle;
use crate::source::cubejobs_regions::codes::{BAD_DIMENSION, DONE, NOT_HALVES};
use crate::source::cubejobs_regions::gives::{refusal, take_out};
use crate::source::cubejobs_regions::machine::Machine;
use crate::source::cubejobs_regions::tag::region_at;
use crate::source::cube_shape::Region;

/// Splits the block of a handle. The upper half goes into another handle, which must be empty.
pub(crate) fn split(machine: &Machine, region: &mut BlockHandle, half: &mut BlockHandle) -> u32 {
    let number = machine.number();
    let code = refusal(number, region);
    if code != DONE {
        return code;
    }
    if region_at(region.tag).dim == 0 {
        return BAD_DIMENSION;
    }
    let held = take_out(machine, region);
    let (lower, upper) = machine.tree().split(held);
    region.put(lower, number);
    half.put(upper, number);
    DONE
}

// Returns whether two blocks are the lower and the upper half of one.
fn are_halves(lower: Region, upper: Region) -> bool {
    if upper.dim != lower.dim {
        return false;
    }
    if lower.base % (1 << (lower.dim + 1)) != 0 {
        return false;
    }
    upper.base == lower.base + (1 << lower.dim)
}

/// Joins the blocks of two handles, if they are the halves of one. The second handle is empty then.
pub(crate) fn join(machine: &Machine, region: &mut BlockHandle, half: &mut BlockHandle) -> u32 {
    let number = machine.number();
    let code = refusal(number, region);
    if code != DONE {
        return code;
    }
    let half_code = refusal(number, half);
    if half_code != DONE {
        return half_code;
    }
    if !are_halves(region_at(region.tag), region_at(half.tag)) {
        return NOT_HALVES;
    }
    let lower = take_out(machine, region);
    let upper = take_out(machine, half);
    let whole = machine.tree().join(lower, upper);
    region.put(whole, number);
    DONE
}
