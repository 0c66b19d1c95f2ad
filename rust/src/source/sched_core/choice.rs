// Made from crates/sched_core/src/choice.rt by checks/lib/erase.py. Change that file.
//! The head, and the first job that may pass it.

use crate::source::sched_core::assigned::Assigned;
use crate::source::sched_core::scheduler::Core;
use crate::source::sched_core::small::slack;
use crate::source::cube_shape::Region;
use crate::source::sched_law::Place;

impl Core {
    /// Returns the slot of the head: that of the reserved job, else of the first waiting job with a
    /// usable block.
    pub(crate) fn head(&self) -> Option<u32> {
        if let Some(kept) = self.reserved {
            return Some(kept.slot);
        }
        let Some(largest) = self.blocks.largest_usable() else {
            return None;
        };
        self.jobs.first(largest)
    }

    // Returns the first vacant block of dimension `k` apart from one that is to be avoided, else
    // the first vacant one.
    fn first_around(&self, k: u32, avoid: Region) -> Option<Region> {
        if let Some(region) = self.blocks.first_beside(k, avoid) {
            return Some(region);
        }
        self.blocks.first(k)
    }

    // Returns the first waiting job with a vacant block, and this block.
    fn passing_any(&self, most: u32) -> Option<Assigned> {
        let Some(slot) = self.jobs.first_passing(Some(most), None, 0) else {
            return None;
        };
        let Place::Waiting(wait) = self.jobs.place(slot) else {
            return None;
        };
        let Some(block) = self.blocks.first(wait.job.dim as u32) else {
            return None;
        };
        Some(Assigned { slot, block })
    }

    // Returns the longest estimate with which a job may start in a reserved block, or 0. With a
    // block of dimension `most` beside the reserved one it returns 0, since no job then has to.
    fn limit_beside(&self, any: Option<u32>, most: u32, avoid: Region) -> u64 {
        if any == Some(most) {
            return 0;
        }
        slack(self.blocks.latest(avoid), self.time)
    }

    // Returns the first waiting job that may start beside a reserved block, and its block.
    fn passing_around(&self, most: u32, avoid: Region) -> Option<Assigned> {
        let any = self.blocks.largest_beside(avoid);
        let limit = self.limit_beside(any, most, avoid);
        let Some(slot) = self.jobs.first_passing(any, Some(most), limit) else {
            return None;
        };
        let Place::Waiting(wait) = self.jobs.place(slot) else {
            return None;
        };
        let Some(block) = self.first_around(wait.job.dim as u32, avoid) else {
            return None;
        };
        Some(Assigned { slot, block })
    }

    /// Returns the first waiting job that may start beside the reservation, and its block.
    pub(crate) fn passing(&self) -> Option<Assigned> {
        let Some(most) = self.blocks.largest_vacant() else {
            return None;
        };
        let Some(kept) = self.reserved else {
            return self.passing_any(most);
        };
        self.passing_around(most, kept.block)
    }
}
