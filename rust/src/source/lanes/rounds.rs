// Made from crates/lanes/src/rounds.rt by checks/lib/erase.py. Change that file.

use crate::source::lanes::handles::Worker;
use crate::source::lanes::lanes::Lanes;
use crate::source::lanes::record::LaneJob;
use crate::source::lanes::sleeping::Sleeper;

/// The outcome of a look at one lane.
#[derive(Clone, Copy, Debug, PartialEq, Eq)]
pub enum Looked {
    /// The number of accepted jobs that were not taken, as far as the worker knows.
    Jobs(u64),
    /// There was no job.
    NoneLeft,
    /// There was none, and the lane is closed.
    AllTaken,
}

/// The outcome of a round of all lanes.
#[derive(Clone, Copy, Debug, PartialEq, Eq)]
pub enum TakenAny {
    /// The lane, its job at the head, and the number of accepted jobs after it that the worker
    /// knows of.
    AnyJob(u32, LaneJob, u64),
    /// There was none, or other workers took it.
    NoJob,
    /// There was none, and all lanes are closed.
    AllEnded,
}

// Returns the lane after this one, in a round.
pub(crate) fn lane_after(lane: u32, lanes: u32) -> u32 {
    if lane + 1 < lanes { lane + 1 } else { 0 }
}

impl Lanes {
    /// Looks for a job in the lane, without taking it. It makes at most two atomic steps in that
    /// lane, of which the first reads how many jobs were taken.
    ///
    /// # Clauses of the proved source
    ///
    /// - requires id: `worker.old.id ≡ self.now`
    /// - requires lane: `lane < self.now.plan.sizes.lanes`
    /// - ensures id: `worker.new.id ≡ self.now`
    /// - ensures deeds: `worker.new.deeds ≡ worker.old.deeds`
    /// - ensures only: `ChangesOnly lane worker.old.known worker.new.known`
    /// - ensures looks: `Looks (take_of lane worker.old.known) result (take_of lane worker.new.known)`
    pub fn look(&self, worker: &mut Worker, lane: u32) -> Looked {
        self.look_as(&mut worker.sleeper, lane)
    }

    // The same, whatever the worker does at the moment.
    pub(crate) fn look_as(&self, sleeper: &mut Sleeper, lane: u32) -> Looked {
        let head = self.head_of(sleeper, lane);
        match self.count_of(sleeper, lane, head) {
            Err(true) => Looked::AllTaken,
            Err(false) => Looked::NoneLeft,
            Ok(count) => Looked::Jobs(count - head),
        }
    }

    /// Takes the job at the head of the first lane where it can, in one round of all lanes from the
    /// lane `from` on. It makes at most five atomic steps in each lane.
    #[inline(always)]
    ///
    /// # Clauses of the proved source
    ///
    /// - requires id: `worker.old.id ≡ self.now`
    /// - requires from: `from < self.now.plan.sizes.lanes`
    /// - ensures id: `worker.new.id ≡ self.now`
    /// - ensures deeds: `worker.new.deeds ≡ worker.old.deeds`
    /// - ensures takes: `TakesAny self.now.plan.sizes.lanes from worker.old.known result worker.new.known`
    /// - ensures keeps: `TakeAnyKeeps self.now.plan.sizes.lanes worker.old.known worker.new.known`
    pub fn take_any(&self, worker: &mut Worker, from: u32) -> TakenAny {
        self.take_round(&mut worker.sleeper, from, false)
    }
}
