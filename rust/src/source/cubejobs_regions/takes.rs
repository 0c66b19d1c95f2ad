// Made from crates/cubejobs_regions/src/takes.rt by checks/lib/erase.py. Change that file.
//! Takes of a block into a handle.

use crate::source::cubejobs_regions::aligned::is_block;
use crate::source::cubejobs_regions::answer::{Answer, done, refused};
use crate::source::cubejobs_regions::block_handle::BlockHandle;
use crate::source::cubejobs_regions::codes::{BAD_BASE, BAD_DIMENSION, DONE, NO_ROOM, NOT_NOW, NOT_OPEN, TAKEN};
use crate::source::cubejobs_regions::handle::Handle;
use crate::source::cubejobs_regions::machine::Machine;
use crate::source::bitmap_tree::HeldBlock;
use crate::source::cube_shape::Region;

// Returns why a take through a handle of a machine cannot fill a handle of a block, or `DONE`.
#[inline(always)]
pub(crate) fn refusal(thread: &Handle, region: &BlockHandle) -> u32 {
    if !thread.is_open() {
        return NOT_OPEN;
    }
    region.refusal()
}

// Puts a held block into a handle.
#[inline(always)]
fn fill(number: u64, region: &mut BlockHandle, held: HeldBlock) -> Answer {
    let answer = done(held.region());
    region.put(held, number);
    answer
}

// Makes the answer of a take that found nothing free: this code, unless it gave up a word.
#[inline(always)]
fn sought(code: u32, disturbed: bool) -> Answer {
    if disturbed {
        return refused(NOT_NOW, 1);
    }
    refused(code, 0)
}

/// Takes a block of dimension `k` by the marks.
#[inline(always)]
pub(crate) fn take(machine: &Machine, region: &mut BlockHandle, k: u32) -> Answer {
    let common = machine.common();
    if k > common.tree.dim() {
        return refused(BAD_DIMENSION, 0);
    }
    match common.tree.take(k, machine.start) {
        Ok(held) => fill(common.number, region, held),
        Err(_) => refused(NOT_NOW, 0),
    }
}

/// Takes a block of dimension `k`. Looks at each word before it is refused.
pub(crate) fn take_exact(machine: &Machine, region: &mut BlockHandle, k: u32) -> Answer {
    let common = machine.common();
    if k > common.tree.dim() {
        return refused(BAD_DIMENSION, 0);
    }
    match common.tree.take_exact(k, machine.start) {
        Ok(held) => fill(common.number, region, held),
        Err(refusal) => {
            let disturbed = refusal.disturbed;
            region.keep(refusal.into_seat());
            sought(NO_ROOM, disturbed)
        }
    }
}

/// Takes one block.
pub(crate) fn take_at(machine: &Machine, region: &mut BlockHandle, block: Region) -> Answer {
    let common = machine.common();
    let n = common.tree.dim();
    if block.dim > n {
        return refused(BAD_DIMENSION, 0);
    }
    if !is_block(n, block) {
        return refused(BAD_BASE, 0);
    }
    match common.tree.take_at(block) {
        Ok(held) => fill(common.number, region, held),
        Err(refusal) => {
            let disturbed = refusal.disturbed;
            region.keep(refusal.into_seat());
            sought(TAKEN, disturbed)
        }
    }
}
