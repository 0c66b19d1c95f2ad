// Made from crates/sched_jobs/src/slots.rt by checks/lib/erase.py. Change that file.
//! The slots of a table of jobs.

use crate::source::sched_jobs::nodes::{MAX_SLOTS, QueueNode};
use crate::source::cube_shape::Region;
use crate::source::kit::fixed_vec::FixedVec;
use crate::source::sched_law::{NEVER, Place, SchedJob, SchedRun, SchedWait};

/// The most jobs that a slot may have.
pub const MAX_GENERATION: u64 = (1 << 40) - 1;

/// What a slot's job does.
#[derive(Clone, Copy)]
pub(crate) enum Phase {
    /// There is no job.
    Free,
    /// It waits.
    Queued,
    /// It runs.
    Started,
}

/// A slot of a table. It has the parts of a `Place`, which takes more bytes.
#[derive(Clone, Copy)]
pub struct Slot {
    /// How many jobs it has had.
    pub(crate) generation: u64,
    pub(crate) job: SchedJob,
    /// How much has passed a waiting job, or the base of a running job's block.
    pub(crate) first: u64,
    /// The estimated end of a running job.
    pub(crate) end: u64,
    /// The dimension of a running job's block.
    pub(crate) block_dim: u32,
    pub(crate) phase: Phase,
}

// All vectors together have at most this many bytes for a job.
const _: () = assert!(size_of::<Slot>() + size_of::<QueueNode>() <= 96);

impl Slot {
    /// A slot before its first use.
    pub const UNUSED: Slot = Slot {
        generation: 0,
        job: SchedJob {
            payload: 0,
            processors: 0,
            dim: 0,
            class: 0,
            estimate: 0,
        },
        first: 0,
        end: 0,
        block_dim: 0,
        phase: Phase::Free,
    };
}

// Returns where the job of a slot is.
fn place_in_slot(slot: &Slot) -> Place {
    match slot.phase {
        Phase::Free => Place::Absent,
        Phase::Queued => Place::Waiting(SchedWait {
            job: slot.job,
            passed: slot.first,
        }),
        Phase::Started => Place::Running(SchedRun {
            job: slot.job,
            block: Region {
                base: slot.first,
                dim: slot.block_dim,
            },
            end: slot.end,
        }),
    }
}

// Returns a slot with a job at a place.
fn slot_of(generation: u64, place: Place) -> Slot {
    match place {
        Place::Absent => Slot {
            generation,
            ..Slot::UNUSED
        },
        Place::Waiting(wait) => Slot {
            generation,
            job: wait.job,
            first: wait.passed,
            end: 0,
            block_dim: 0,
            phase: Phase::Queued,
        },
        Place::Running(run) => Slot {
            generation,
            job: run.job,
            first: run.block.base,
            end: run.end,
            block_dim: run.block.dim,
            phase: Phase::Started,
        },
    }
}

/// Returns where the job of a slot is.
pub(crate) fn place_at(slots: &[Slot], slot: u32) -> Place {
    place_in_slot(&slots[slot as usize])
}

/// Returns whether a slot has a job.
pub(crate) fn is_present(slots: &[Slot], slot: u32) -> bool {
    let Place::Absent = place_at(slots, slot) else {
        return true;
    };
    false
}

/// Returns the first slot from one on that has a job.
pub(crate) fn next_present(slots: &[Slot], from: u32) -> Option<u32> {
    let count = slots.len() as u32;
    for slot in from..count {
        if is_present(slots, slot) {
            return Some(slot);
        }
    }
    None
}

/// Returns how many jobs a slot has had.
pub(crate) fn generation_at(slots: &[Slot], slot: u32) -> u64 {
    slots[slot as usize].generation
}

/// Returns how many processors a job uses.
pub(crate) fn processors_of(job: &SchedJob) -> u64 {
    job.processors as u64
}

/// Returns 1 if an end is known, else 0.
pub(crate) fn count_known(end: u64) -> u64 {
    if end < NEVER {
        return 1;
    }
    0
}

// Writes a slot of a slice.
fn put_in(slots: &mut [Slot], slot: u32, generation: u64, place: Place) {
    slots[slot as usize] = slot_of(generation, place);
}

/// Writes a slot.
pub(crate) fn put(slots: &mut FixedVec<Slot>, slot: u32, generation: u64, place: Place) {
    put_in(slots, slot, generation, place);
}
