// Made from crates/sched_core/src/scheduler.rt by checks/lib/erase.py. Change that file.
//! The scheduler as a value, and the calls that start nothing.

use crate::source::sched_core::assigned::Assigned;
use crate::source::sched_core::small::{beside, forget};
use crate::source::cube_shape::{MAX_BITMAP_DIM, Region};
use crate::source::kit::fixed_vec::Store;
use crate::source::sched_blocks::Blocks;
use crate::source::sched_jobs::{CLASSES, Jobs, MAX_GENERATION, MAX_SLOTS};
use crate::source::sched_law::{Place, SchedJob};
use crate::source::kit::alloc::AllocError;

/// A scheduler of aligned blocks for one thread.
///
/// Only `new` takes memory.
pub(crate) struct Core {
    pub(crate) blocks: Blocks,
    pub(crate) jobs: Jobs,
    pub(crate) reserved: Option<Assigned>,
    pub(crate) time: u64,
    pub(crate) patience: u32,
}

impl Core {
    /// Creates a scheduler of a machine of dimension `dim`, for this many jobs, without a job, in
    /// memory of a store. If `patience` times the machine has passed the head, a block is reserved
    /// for it in any case.
    pub(crate) fn new(
        store: &mut Store,
        dim: u32,
        capacity: usize,
        patience: u32,
    ) -> Result<Self, AllocError> {
        let blocks = Blocks::new(store, dim)?;
        let jobs = Jobs::new(store, capacity)?;
        Ok(Core {
            blocks,
            jobs,
            reserved: None,
            time: 0,
            patience,
        })
    }

    /// Returns the dimension of the machine.
    pub(crate) fn dim(&self) -> u32 {
        self.blocks.dim()
    }

    /// Returns the time of the last decision.
    pub(crate) fn now(&self) -> u64 {
        self.time
    }

    /// Returns how many times the machine passes a job before a block without a known promise is
    /// reserved for it.
    pub(crate) fn patience(&self) -> u32 {
        self.patience
    }

    /// Returns how many jobs there may be that are not over.
    pub(crate) fn capacity(&self) -> usize {
        self.jobs.capacity()
    }

    /// Returns how many jobs were submitted, which is the number of the next one.
    pub(crate) fn submitted(&self) -> u64 {
        self.jobs.next()
    }

    /// Returns where the job of a slot is.
    pub(crate) fn place(&self, slot: u32) -> Place {
        self.jobs.place(slot)
    }

    /// Returns the number of a slot's job.
    pub(crate) fn arrival(&self, slot: u32) -> u64 {
        self.jobs.arrival(slot)
    }

    /// Returns a name for a slot's job, which no other job ever has. It is not 0.
    pub(crate) fn ticket(&self, slot: u32) -> u64 {
        self.jobs.ticket(slot)
    }

    /// Returns the slot of the job with a ticket, if it is not over.
    pub(crate) fn find(&self, ticket: u64) -> Option<u32> {
        self.jobs.find(ticket)
    }

    /// Returns the first slot from one on that has a job.
    pub(crate) fn next_used(&self, from: u32) -> Option<u32> {
        self.jobs.next_used(from)
    }

    /// Returns how many jobs wait.
    pub(crate) fn waiting(&self) -> u64 {
        self.jobs.waiting()
    }

    /// Returns how many jobs run.
    pub(crate) fn running(&self) -> u64 {
        self.jobs.running()
    }

    /// Returns how many processors the running jobs use together. Their blocks may have more.
    pub(crate) fn asked(&self) -> u64 {
        self.jobs.asked()
    }

    /// Returns how many waiting jobs come before the waiting job of a slot. They are of a lower
    /// class, or of its class with a lesser number.
    pub(crate) fn count_before(&self, slot: u32) -> u64 {
        self.jobs.count_before(slot)
    }

    /// Returns how many processors jobs hold.
    pub(crate) fn held(&self) -> u32 {
        self.blocks.held_processors()
    }

    /// Returns how many processors are out of service.
    pub(crate) fn occupied(&self) -> u32 {
        self.blocks.occupied_processors()
    }

    /// Returns the largest dimension of a vacant block, or `None` if no processor is vacant.
    pub(crate) fn largest_vacant(&self) -> Option<u32> {
        self.blocks.largest_vacant()
    }

    /// Adds a waiting job, and returns its slot. Returns `None` only if each slot has a job or has
    /// had as many as it may have; then nothing changes.
    pub(crate) fn submit(&mut self, job: SchedJob) -> Option<u32> {
        self.jobs.submit(job)
    }

    /// Adds a waiting job in a slot. Returns false only if the slot has a job or has had as many as
    /// it may have; then nothing changes.
    pub(crate) fn submit_into(&mut self, slot: u32, job: SchedJob) -> bool {
        self.jobs.submit_into(slot, job)
    }

    /// Removes a waiting job. A block that was reserved for it is so no more.
    pub(crate) fn cancel(&mut self, slot: u32) {
        self.jobs.cancel(slot);
        forget(&mut self.reserved, slot);
    }

    /// Removes a running job, whose block is vacant then.
    pub(crate) fn finish(&mut self, slot: u32) {
        let Place::Running(ended) = self.jobs.place(slot) else {
            return;
        };
        self.blocks.finish(ended.block);
        self.jobs.finish(slot);
    }

    /// Takes a block out of service. A reservation of a part of it ends. Returns false only if a
    /// part of the block is in use; then nothing changes.
    pub(crate) fn occupy(&mut self, region: Region) -> bool {
        let n = self.blocks.dim();
        if !self.blocks.occupy(region) {
            return false;
        }
        self.reserved = beside(n, region, self.reserved);
        true
    }

    /// Puts a block back into service. Returns false only if it is not out of service as one block;
    /// then nothing changes.
    pub(crate) fn vacate(&mut self, region: Region) -> bool {
        self.blocks.vacate(region)
    }
}
