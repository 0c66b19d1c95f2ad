// Made from crates/lanes/src/takes.rt by checks/lib/erase.py. Change that file.

use crate::source::kit::prelude::{Vec};

use crate::source::lanes::handles::Worker;
use crate::source::lanes::lanes::Lanes;
use crate::source::lanes::record::LaneJob;
use crate::source::lanes::sizes::CLOSED;

/// The outcome of a take.
#[derive(Clone, Copy, Debug, PartialEq, Eq)]
pub enum Taken {
    /// The job at the head, and the number of accepted jobs after it that the worker knows of.
    Job(LaneJob, u64),
    /// There was none.
    Empty,
    /// Another worker took the job at the head.
    Lost,
    /// There was none, and the lane is closed.
    Ended,
}

// Writes the count of one lane.
pub(crate) fn set_tail(tails: &mut Vec<u64>, lane: u32, count: u64) {
    tails[lane as usize] = count;
}

// Returns the count of accepted jobs in the word, and whether the closed mark is there.
pub(crate) fn count_and_mark(found: u64) -> (u64, bool) {
    if found < CLOSED {
        (found, false)
    } else {
        (found - CLOSED, true)
    }
}

impl Lanes {
    /// Takes the job at the head of the lane. It makes at most five atomic steps in that lane.
    /// `Empty` and `Ended` come from a read of the count of accepted jobs in this call.
    ///
    /// # Clauses of the proved source
    ///
    /// - requires id: `worker.old.id ≡ self.now`
    /// - requires lane: `lane < self.now.plan.sizes.lanes`
    /// - ensures id: `worker.new.id ≡ self.now`
    /// - ensures deeds: `worker.new.deeds ≡ worker.old.deeds`
    /// - ensures only: `ChangesOnly lane worker.old.known worker.new.known`
    /// - ensures takes: `Takes (take_of lane worker.old.known) result (take_of lane worker.new.known)`
    /// - ensures steps: `(take_of lane worker.new.known).steps ≤ (take_of lane worker.old.known).steps + call_steps`
    pub fn take(&self, worker: &mut Worker, lane: u32) -> Taken {
        self.take_as(&mut worker.sleeper, lane, false)
    }
}
