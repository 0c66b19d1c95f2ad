// Made from crates/sched_board/src/serving.rt by checks/lib/erase.py. Change that file.
//! How workers are served.

use crate::source::sched_board::board::{BoardPhase, JobBoard};
use crate::source::sched_board::start::ThreadStart;
use crate::source::sched_board::woken::Woken;
use crate::source::sched_board::workers::PoolWorker;

/// What a worker knows of itself between its turns.
#[derive(Clone, Copy, Debug, PartialEq, Eq, Hash)]
pub enum WorkerStage {
    /// It has no job, and waits for none.
    Out,
    /// It waits for a job, or has one that it has not seen.
    Asked,
    /// It has a job.
    Has,
}

/// What a worker gets in a turn.
#[derive(Clone, Copy, Debug, PartialEq, Eq)]
pub struct Served {
    /// Its job, if it has one now.
    pub start: Option<ThreadStart>,
    /// The workers that got a job.
    pub woken: Woken,
    /// Whether more jobs may start.
    pub more: bool,
    /// Whether no job will start any more.
    pub over: bool,
}

impl JobBoard {
    // Lets a worker wait whose job, if it had one, is over.
    fn begin(&mut self, worker: u32, stage: WorkerStage) {
        match stage {
            WorkerStage::Out => self.ask(worker),
            WorkerStage::Asked => {}
            WorkerStage::Has => {
                self.finish(worker);
                self.ask(worker);
            }
        }
    }

    // Returns whether no job will start any more if none may start now.
    pub(crate) fn is_over(&self) -> bool {
        match self.phase {
            BoardPhase::Open => false,
            BoardPhase::Closing => {
                let scheduler = self.scheduler();
                scheduler.shows_a_state();
                scheduler.running() == 0
            }
            BoardPhase::Stopped => true,
        }
    }

    /// Ends the job of a worker, if it has one, and lets the worker wait for the next. Starts jobs
    /// for workers that wait. Returns the worker's job, if it got one.
    ///
    /// # Clauses of the proved source
    ///
    /// - requires inside: `worker < workers_of self.old.pool`
    /// - requires fits: `FitsStage stage (worker_in self.old.pool worker)`
    /// - ensures follows: `FollowsAt now self.old (deeds_of stage worker) self.new`
    /// - ensures stopped: `self.old.phase ≡ Stopped → Leads self.old (deeds_of stage worker) self.new`
    /// - ensures serves: `Serves (Some worker) self.old self.new`
    /// - ensures here: `worker_in self.new.pool worker ≢ Away`
    /// - ensures start: `IfSome result.start (λ start. (slot : ℕ) × ((worker_in self.new.pool worker ≡ Busy slot) × IsStart self.new.pool.core slot start))`
    /// - ensures none: `IfNone result.start ((slot : ℕ) → worker_in self.new.pool worker ≡ Busy slot → ⊥)`
    /// - ensures woken: `NamesOthers worker self.old self.new result.woken`
    /// - ensures more: `IsTrue result.more → result.woken.count ≡ MOST_WOKEN`
    /// - ensures rest: `IsFalse result.more → IsAtRest self.new`
    /// - ensures over: `IsTrue result.over → IsOver self.new × IsAtRest self.new`
    /// - ensures told: `IsNone result.start → IsFalse result.more → IsOver self.new → IsTrue result.over`
    /// - ensures no_start: `IsTrue result.over → IsSome result.start → ⊥`
    /// - ensures count: `workers_of self.new.pool ≡ workers_of self.old.pool`
    /// - ensures phase: `KeepsPhase self.old self.new`
    pub fn serve(&mut self, worker: u32, stage: WorkerStage, now: u64) -> Served {
        self.begin(worker, stage);
        let (woken, more) = self.decide(now);
        let start = self.start_of(worker);
        let over = start.is_none() && !more && self.is_over();
        Served {
            start,
            woken,
            more,
            over,
        }
    }

    // Lets a worker wait no longer, or ends its job.
    fn end(&mut self, worker: u32, stage: WorkerStage) {
        match (stage, self.worker(worker)) {
            (WorkerStage::Asked, PoolWorker::Waiting) => self.leave(worker),
            (WorkerStage::Has, _) => self.finish(worker),
            (_, _) => {}
        }
    }

    /// Ends the job of a worker, if it has one. If it waits, it waits no longer; but if it got a
    /// job meanwhile, it has that one. Starts jobs for workers that wait.
    ///
    /// # Clauses of the proved source
    ///
    /// - requires inside: `worker < workers_of self.old.pool`
    /// - requires fits: `FitsStage stage (worker_in self.old.pool worker)`
    /// - ensures follows: `FollowsAt now self.old (deeds_to_stop stage (worker_in self.old.pool worker) worker) self.new`
    /// - ensures stopped: `self.old.phase ≡ Stopped → Leads self.old (deeds_to_stop stage (worker_in self.old.pool worker) worker) self.new`
    /// - ensures serves: `Serves (Some worker) self.old self.new`
    /// - ensures start: `IfSome result.start (λ start. (slot : ℕ) × ((worker_in self.old.pool worker ≡ Busy slot) × (stage ≡ Asked) × (worker_in self.new.pool worker ≡ Busy slot) × IsStart self.new.pool.core slot start))`
    /// - ensures away: `IfNone result.start (worker_in self.new.pool worker ≡ Away)`
    /// - ensures woken: `NamesOthers worker self.old self.new result.woken`
    /// - ensures more: `IsTrue result.more → result.woken.count ≡ MOST_WOKEN`
    /// - ensures rest: `IsFalse result.more → IsAtRest self.new`
    /// - ensures over: `IsTrue result.over → IsOver self.new × IsAtRest self.new`
    /// - ensures told: `IsNone result.start → IsFalse result.more → IsOver self.new → IsTrue result.over`
    /// - ensures count: `workers_of self.new.pool ≡ workers_of self.old.pool`
    /// - ensures phase: `KeepsPhase self.old self.new`
    pub fn stop(&mut self, worker: u32, stage: WorkerStage, now: u64) -> Served {
        self.end(worker, stage);
        let (woken, more) = self.decide(now);
        let start = self.start_of(worker);
        let over = start.is_none() && !more && self.is_over();
        Served {
            start,
            woken,
            more,
            over,
        }
    }
}
