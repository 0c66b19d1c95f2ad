// Made from crates/lanes/src/ending.rt by checks/lib/erase.py. Change that file.

use crate::source::lanes::handles::{Lane, LanesEnd, Worker};
use crate::source::lanes::lanes::{Lanes, cell_at, word_of};
use crate::source::lanes::record::LaneJob;
use crate::source::lanes::rule::Gather;
use crate::source::lanes::sizes::{CLOSED, HEAD, Plan, TAIL};
use crate::source::lanes::sleeping::Sleeper;
use crate::source::kit::atomic_table::Closed;
use crate::source::kit::alloc::Global;
use crate::source::kit::collections::VecDeque;

// Returns the job with the number `seq` out of its cells.
fn job_at(closed: &Closed<(), Global>, plan: Plan, lane: u32, seq: u64) -> LaneJob {
    let cell = cell_at(plan, seq);
    let payload = closed.word(word_of(plan, lane, cell));
    let dim = closed.word(word_of(plan, lane, cell + 1));
    LaneJob {
        seq,
        payload,
        dim: (dim % (1 << 32)) as u32,
    }
}

// Adds the jobs that are left in one lane.
fn drain_lane(
    closed: &Closed<(), Global>,
    rest: &mut VecDeque<(u32, LaneJob)>,
    plan: Plan,
    lane: u32,
) {
    let taken = closed.word(word_of(plan, lane, HEAD));
    let accepted = closed.word(word_of(plan, lane, TAIL)) - CLOSED;
    let mut seq = taken;
    while seq < accepted {
        let job = job_at(closed, plan, lane, seq);
        rest.push_back_reserved((lane, job));
        seq += 1;
    }
}

// Adds the jobs that are left in all lanes, in the order of the lanes.
pub(crate) fn drain(closed: &Closed<(), Global>, rest: &mut VecDeque<(u32, LaneJob)>, plan: Plan) {
    for lane in 0..plan.sizes.lanes {
        drain_lane(closed, rest, plan, lane);
    }
}

impl Lanes {
    /// Takes a lane back.
    ///
    /// # Clauses of the proved source
    ///
    /// - requires end: `end.old.id ≡ self.now`
    /// - requires lane: `lane.id ≡ self.now`
    /// - ensures id: `end.new.id ≡ self.now`
    /// - ensures lanes: `end.new.lanes ≡ end.old.lanes ++ lane.known ∷ []`
    /// - ensures workers: `end.new.workers ≡ end.old.workers`
    /// - ensures counts: `end.new.counts ≡ end.old.counts`
    pub fn gather_lane(&self, end: &mut LanesEnd, lane: Lane) {
        let Lane {
            seat,
            plan: _,
            number: _,
            seen: _,
            next: _,
        } = lane;
        self.table.shared.join_seat::<Gather>(&mut end.seat, seat);
    }

    /// Takes a worker back.
    ///
    /// # Clauses of the proved source
    ///
    /// - requires end: `end.old.id ≡ self.now`
    /// - requires worker: `worker.id ≡ self.now`
    /// - ensures id: `end.new.id ≡ self.now`
    /// - ensures workers: `end.new.workers ≡ end.old.workers ++ worker.known ∷ []`
    /// - ensures lanes: `end.new.lanes ≡ end.old.lanes`
    /// - ensures counts: `end.new.counts ≡ end.old.counts`
    pub fn gather_worker(&self, end: &mut LanesEnd, worker: Worker) {
        let Worker { sleeper } = worker;
        self.gather_sleeper(end, sleeper);
    }

    // The same, whatever it does at the moment.
    fn gather_sleeper(&self, end: &mut LanesEnd, sleeper: Sleeper) {
        let Sleeper {
            seat,
            plan: _,
            number: _,
            tails: _,
        } = sleeper;
        self.table.shared.join_seat::<Gather>(&mut end.seat, seat);
    }
}
