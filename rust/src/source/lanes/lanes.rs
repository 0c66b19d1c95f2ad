// Made from crates/lanes/src/lanes.rt by checks/lib/erase.py. Change that file.

use crate::source::kit::prelude::{Vec, vec};

use crate::source::lanes::ending::drain;
use crate::source::lanes::handles::{Lane, LanesEnd, Members, Worker};
use crate::source::lanes::record::LaneJob;
use crate::source::lanes::rule::{DealLane, DealWorker, LanesRule};
use crate::source::lanes::sizes::{CELLS, MAX_CAPACITY, MAX_LANES, MAX_WORKERS, Plan, Sizes};
use crate::source::lanes::sleeping::Sleeper;
use crate::source::lanes::view::Both;
use crate::source::kit::atomic_table::Table;
use crate::source::kit::alloc::{AllocError, Global};
use crate::source::kit::collections::VecDeque;

use crate::source::wake_pool::word_count;

// Returns the word at this place among those of the lane.
pub(crate) fn word_of(plan: Plan, lane: u32, place: usize) -> usize {
    let lane_words = CELLS + 2 * plan.sizes.capacity as usize;
    plan.base as usize + lane as usize * lane_words + place
}

// Returns the place of the first cell of the job with the number `seq`.
pub(crate) fn cell_at(plan: Plan, seq: u64) -> usize {
    CELLS + 2 * (seq % plan.sizes.capacity) as usize
}

/// Lanes of jobs, each from one producer to all workers. Threads share them by reference.
pub struct Lanes {
    pub(crate) table: Table<(), Both, Plan, LanesRule, Global>,
    pub(crate) plan: Plan,
    // The room for the jobs that are left at the end.
    pub(crate) room: VecDeque<(u32, LaneJob)>,
}

impl Lanes {
    /// Opens lanes of which nothing was asked, with all their handles. It reserves the memory for
    /// all jobs that can be left at the end.
    ///
    /// # Clauses of the proved source
    ///
    /// - requires some_lane: `0 < sizes.lanes`
    /// - requires some_room: `0 < sizes.capacity`
    /// - requires capacity: `sizes.capacity ≤ MAX_CAPACITY`
    /// - requires lanes: `sizes.lanes ≤ MAX_LANES`
    /// - requires workers: `sizes.workers ≤ MAX_WORKERS`
    /// - ensures sizes: `IfOk result (λ made. made.0.plan.sizes ≡ sizes)`
    /// - ensures members: `IfOk result (λ made. made.1.id ≡ made.0)`
    /// - ensures none_dealt: `IfOk result (λ made. (made.1.dealt_lanes ≡ 0) × (made.1.dealt_workers ≡ 0))`
    pub fn open(alloc: Global, sizes: Sizes) -> Result<(Lanes, Members), AllocError> {
        let plan = Plan {
            base: 0,
            sleepers: 0,
            sizes,
        };
        Lanes::open_plan(alloc, plan)
    }

    /// Opens lanes whose workers may all sleep (`Worker::into_sleeper`), with all their handles.
    ///
    /// # Clauses of the proved source
    ///
    /// - requires some_lane: `0 < sizes.lanes`
    /// - requires some_room: `0 < sizes.capacity`
    /// - requires capacity: `sizes.capacity ≤ MAX_CAPACITY`
    /// - requires lanes: `sizes.lanes ≤ MAX_LANES`
    /// - requires workers: `sizes.workers ≤ MAX_WORKERS`
    /// - ensures sizes: `IfOk result (λ made. made.0.plan.sizes ≡ sizes)`
    /// - ensures sleepers: `IfOk result (λ made. made.0.plan.sleepers ≡ sizes.workers)`
    /// - ensures members: `IfOk result (λ made. made.1.id ≡ made.0)`
    /// - ensures none_dealt: `IfOk result (λ made. (made.1.dealt_lanes ≡ 0) × (made.1.dealt_workers ≡ 0))`
    pub fn open_with_sleepers(alloc: Global, sizes: Sizes) -> Result<(Lanes, Members), AllocError> {
        let plan = Plan {
            base: crate::source::wake_pool::base(sizes.workers),
            sleepers: sizes.workers,
            sizes,
        };
        Lanes::open_plan(alloc, plan)
    }

    // Opens lanes with these words before them.
    fn open_plan(alloc: Global, plan: Plan) -> Result<(Lanes, Members), AllocError> {
        let lane_words = CELLS + 2 * plan.sizes.capacity as usize;
        let lanes = plan.sizes.lanes as usize;
        let count = plan.base as usize + lanes * lane_words;
        let words = vec![in alloc; 0_u64; count]?;
        let room = VecDeque::with_capacity(alloc, lanes * plan.sizes.capacity as usize)?;
        let (table, seat) = Table::of_words(alloc, words.as_slice(), &plan)?;
        let members = Members {
            seat,
            plan,
            dealt_lanes: 0,
            dealt_workers: 0,
        };
        Ok((Lanes { table, plan, room }, members))
    }

    // Returns the word at this place among those of the lane.
    pub(crate) fn word(&self, lane: u32, place: usize) -> usize {
        word_of(self.plan, lane, place)
    }

    // Returns the place of the first cell of the job with the number `seq`.
    pub(crate) fn cell(&self, seq: u64) -> usize {
        cell_at(self.plan, seq)
    }

    /// Deals out the first lane that is not dealt out yet.
    ///
    /// # Clauses of the proved source
    ///
    /// - requires members: `members.old.id ≡ self.now`
    /// - requires more: `members.old.dealt_lanes < self.now.plan.sizes.lanes`
    /// - ensures members: `members.new.id ≡ self.now`
    /// - ensures id: `result.id ≡ self.now`
    /// - ensures fresh: `result.known ≡ fresh_lane self.now.plan.sizes.capacity members.old.dealt_lanes`
    /// - ensures no_deeds: `result.deeds ≡ []`
    /// - ensures next: `result.next ≡ sleepers.word_count self.now.plan.sleepers`
    /// - ensures lanes: `members.new.dealt_lanes ≡ members.old.dealt_lanes + 1`
    /// - ensures workers: `members.new.dealt_workers ≡ members.old.dealt_workers`
    pub fn deal_lane(&self, members: &mut Members) -> Lane {
        let number = members.dealt_lanes;
        let seat = self.table.shared.split_seat::<DealLane>(&mut members.seat);
        members.dealt_lanes += 1;
        Lane {
            seat,
            plan: self.plan,
            number,
            seen: 0,
            next: word_count(self.plan.sleepers),
        }
    }

    /// Deals out the first worker that is not dealt out yet. It takes memory for a word for each
    /// lane.
    ///
    /// # Clauses of the proved source
    ///
    /// - requires members: `members.old.id ≡ self.now`
    /// - requires more: `members.old.dealt_workers < self.now.plan.sizes.workers`
    /// - ensures members: `members.new.id ≡ self.now`
    /// - ensures id: `IfOk result (λ worker. worker.id ≡ self.now)`
    /// - ensures fresh: `IfOk result (λ worker. worker.known ≡ fresh_worker self.now.plan members.old.dealt_workers)`
    /// - ensures no_deeds: `IfOk result (λ worker. worker.deeds ≡ [])`
    /// - ensures workers: `IfOk result (λ _. members.new.dealt_workers ≡ members.old.dealt_workers + 1)`
    /// - ensures lanes: `members.new.dealt_lanes ≡ members.old.dealt_lanes`
    /// - ensures unchanged: `OnErr result (members.new ≡ members.old)`
    pub fn deal_worker(&self, alloc: Global, members: &mut Members) -> Result<Worker, AllocError> {
        let tails = vec![in alloc; 0_u64; self.plan.sizes.lanes as usize]?;
        let sleeper = self.seat_sleeper(members, tails);
        Ok(Worker { sleeper })
    }

    /// Returns the sizes of the lanes.
    ///
    /// # Clauses of the proved source
    ///
    /// - ensures: `result ≡ self.now.plan.sizes`
    pub fn sizes(&self) -> Sizes {
        let sizes = self.plan.sizes;
        sizes
    }

    // Deals out the first worker that is not dealt out yet, as one that may sleep. `tails` has a 0
    // for each lane.
    fn seat_sleeper(&self, members: &mut Members, tails: Vec<u64>) -> Sleeper {
        let number = members.dealt_workers;
        let seat = self
            .table
            .shared
            .split_seat::<DealWorker>(&mut members.seat);
        members.dealt_workers += 1;
        Sleeper {
            seat,
            plan: self.plan,
            number,
            tails,
        }
    }

    /// Ends closed lanes, once as many lanes and workers have come back as there are, so that these
    /// are all of them. Returns the jobs that no worker took with their lanes, in the order of the
    /// lanes and in that of each lane.
    ///
    /// # Clauses of the proved source
    ///
    /// - requires end: `end.id ≡ self`
    /// - requires lanes: `length end.lanes ≡ self.plan.sizes.lanes`
    /// - requires workers: `length end.workers ≡ self.plan.sizes.workers`
    /// - ensures: `WholeLanes self.plan.sizes end.lanes end.workers result.items end.counts`
    pub fn into_rest(self, end: LanesEnd) -> VecDeque<(u32, LaneJob)> {
        let Lanes {
            table,
            plan,
            room: mut rest,
        } = self;
        let LanesEnd { seat, plan: _ } = end;
        let closed = table.close_with(seat);
        drain(&closed, &mut rest, plan);
        closed.free();
        rest
    }
}
