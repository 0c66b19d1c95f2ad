// Made from crates/sched_core/src/start.rt by checks/lib/erase.py. Change that file.
//! The decision: which job starts next, and its start.

use crate::source::sched_core::assigned::{Assigned, Decision};
use crate::source::sched_core::scheduler::Core;
use crate::source::sched_core::small::{end_of, forget, is_patient};
use crate::source::cube_shape::{MAX_BITMAP_DIM, Region};
use crate::source::sched_law::{NEVER, Place};

impl Core {
    // Returns whether a block may be reserved for a job: its latest end is known, or enough has
    // passed the job.
    fn may_reserve(&self, block: Region, passed: u64) -> bool {
        if self.blocks.latest(block) < NEVER {
            return true;
        }
        if is_patient(passed, self.patience, self.blocks.dim()) {
            return false;
        }
        true
    }

    // Returns whether the head has to wait for a reservation: no end of a running job is known, and
    // too little has passed the head.
    fn has_to_wait(&self, passed: u64) -> bool {
        if is_patient(passed, self.patience, self.blocks.dim()) {
            return !self.jobs.has_known_end();
        }
        false
    }

    // Reserves a block for the head, unless one is or it has to wait for that. No block is free for
    // the head.
    fn prepare(&mut self, head: u32) {
        let None = self.reserved else {
            return;
        };
        let Place::Waiting(wait) = self.jobs.place(head) else {
            return;
        };
        if self.has_to_wait(wait.passed) {
            return;
        }
        let block = self.blocks.choose(wait.job.dim as u32);
        if !self.may_reserve(block, wait.passed) {
            return;
        }
        self.reserved = Some(Assigned { slot: head, block });
    }

    // Decides which job starts, and in which block. It may reserve a block.
    fn decide(&mut self) -> Option<Decision> {
        let Some(head) = self.head() else {
            return None;
        };
        let Place::Waiting(wait) = self.jobs.place(head) else {
            return None;
        };
        if let Some(block) = self.blocks.first(wait.job.dim as u32) {
            return Some(Decision {
                slot: head,
                head,
                block,
            });
        }
        self.prepare(head);
        let Some(it) = self.passing() else {
            return None;
        };
        Some(Decision {
            slot: it.slot,
            head,
            block: it.block,
        })
    }

    // Starts a waiting job in a vacant block.
    fn launch(&mut self, slot: u32, block: Region) {
        let Place::Waiting(wait) = self.jobs.place(slot) else {
            return;
        };
        let end = end_of(self.time, wait.job.estimate);
        // This needs no block, so a processor may do it while it still looks for the block.
        self.jobs.start(slot, block, end);
        self.blocks.start(block, end);
        forget(&mut self.reserved, slot);
    }

    // Counts that a job with a block of dimension `k` passes the head.
    fn count(&mut self, head: u32, k: u32) {
        self.jobs.pass(head, k);
    }

    // Starts the job that was decided on.
    fn carry_out(&mut self, it: Decision) {
        if it.head == it.slot {
            self.launch(it.slot, it.block);
            return;
        }
        self.count(it.head, it.block.dim);
        self.launch(it.slot, it.block);
    }

    /// Starts the job that comes next at this time, and returns its slot. Returns `None` if no job
    /// may start; then a block may have been reserved. A state has only one decision, as
    /// `sched_law::decisions_are_one` says, so the clause `decides` fixes the job and the state.
    /// The laws of `sched_law` on promises hold if times never go back.
    pub(crate) fn next(&mut self, now: u64) -> Option<u32> {
        self.time = now;
        let Some(it) = self.decide() else {
            return None;
        };
        self.carry_out(it);
        Some(it.slot)
    }

    /// Returns the job that `next` would start at this time, and its block. It starts nothing, but
    /// a block may be reserved as `next` would reserve it.
    pub(crate) fn peek(&mut self, now: u64) -> Option<Assigned> {
        self.time = now;
        let Some(it) = self.decide() else {
            return None;
        };
        Some(Assigned {
            slot: it.slot,
            block: it.block,
        })
    }
}
