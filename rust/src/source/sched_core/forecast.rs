// Made from crates/sched_core/src/forecast.rt by checks/lib/erase.py. Change that file.
//! What is known of a job's start and end, and which jobs come before it.

use crate::source::sched_core::assigned::Forecast;
use crate::source::sched_core::scheduler::Core;
use crate::source::sched_core::small::precedes;
use crate::source::sched_law::Place;

impl Core {
    // Returns what is known of a waiting job.
    fn promise(&self, slot: u32) -> Forecast {
        let Some(kept) = self.reserved else {
            return Forecast::Queued;
        };
        if kept.slot != slot {
            return Forecast::Queued;
        }
        Forecast::Promised(kept.block, self.blocks.latest(kept.block))
    }

    /// Returns what is known of when and where the job of a slot runs.
    pub(crate) fn forecast(&self, slot: u32) -> Forecast {
        let place = self.jobs.place(slot);
        if let Place::Running(run) = place {
            return Forecast::Started(run.block, run.end);
        }
        let Place::Waiting(_) = place else {
            return Forecast::Nothing;
        };
        self.promise(slot)
    }

    // Returns whether the waiting job of a slot comes before that of another slot in order.
    fn is_before(&self, first: u32, second: u32) -> bool {
        let Place::Waiting(one) = self.jobs.place(first) else {
            return false;
        };
        let Place::Waiting(other) = self.jobs.place(second) else {
            return false;
        };
        let number = self.jobs.arrival(first);
        precedes(&one.job, number, &other.job, self.jobs.arrival(second))
    }

    // Returns how many waiting jobs come before that of a slot, where `before` do in order. The
    // reserved job comes before all others.
    fn before_with(&self, slot: u32, before: u64) -> u64 {
        let Some(kept) = self.reserved else {
            return before;
        };
        if kept.slot == slot {
            return 0;
        }
        if self.is_before(kept.slot, slot) {
            return before;
        }
        before + 1
    }

    /// Returns how many waiting jobs come before the waiting job of a slot. The reserved job comes
    /// before all others.
    pub(crate) fn before(&self, slot: u32) -> u64 {
        self.before_with(slot, self.jobs.count_before(slot))
    }

    /// Returns the same for the job that was submitted last.
    pub(crate) fn before_last(&self, slot: u32) -> u64 {
        self.before_with(slot, self.jobs.count_before_last(slot))
    }
}
