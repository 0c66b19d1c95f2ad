// Made from crates/cubejobs_regions/src/gives.rt by checks/lib/erase.py. Change that file.
//! A held block comes out of its handle: to be released, split or joined.

use crate::source::cubejobs_regions::block_handle::BlockHandle;
use crate::source::cubejobs_regions::codes::{DONE, NOTHING_HELD, OTHER_MACHINE};
use crate::source::cubejobs_regions::machine::Machine;
use crate::source::bitmap_tree::HeldBlock;

// Returns why a call on the machine of this number cannot have the block of a handle, or `DONE`.
#[inline(always)]
pub(crate) fn refusal(number: u64, region: &BlockHandle) -> u32 {
    if !region.is_held() {
        return NOTHING_HELD;
    }
    if region.machine == number {
        DONE
    } else {
        OTHER_MACHINE
    }
}

// Takes the block of the machine out of a handle, which is empty then.
#[inline(always)]
pub(crate) fn take_out(machine: &Machine, region: &mut BlockHandle) -> HeldBlock {
    region.take()
}

/// Releases the block of a handle.
#[inline(always)]
pub(crate) fn release(machine: &Machine, region: &mut BlockHandle) -> u32 {
    let common = machine.common();
    let code = refusal(common.number, region);
    if code != DONE {
        return code;
    }
    let held = take_out(machine, region);
    let released = common.tree.release(held);
    region.keep(released.into_seat());
    DONE
}
