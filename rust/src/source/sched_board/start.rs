// Made from crates/sched_board/src/start.rt by checks/lib/erase.py. Change that file.
//! A job that starts, as its worker sees it.

use crate::source::sched_board::board::JobBoard;
use crate::source::sched_board::workers::PoolWorker;
use crate::source::sched_core::Place;

/// A job that starts.
#[derive(Clone, Copy, Debug, PartialEq, Eq, Hash)]
pub struct ThreadStart {
    /// The job's ticket, which no other job has.
    pub ticket: u64,
    /// The number that came with the job.
    pub payload: u64,
    /// The first of its processors.
    pub base: u64,
    /// How many processors it uses.
    pub processors: u32,
}

impl JobBoard {
    /// Returns the job of a worker, if it has one.
    ///
    /// # Clauses of the proved source
    ///
    /// - requires inside: `worker < workers_of self.now.pool`
    /// - ensures some: `IfSome result (λ start. (slot : ℕ) × ((worker_in self.now.pool worker ≡ Busy slot) × IsStart self.now.pool.core slot start))`
    /// - ensures none: `IfNone result ((slot : ℕ) → worker_in self.now.pool worker ≡ Busy slot → ⊥)`
    pub fn start_of(&self, worker: u32) -> Option<ThreadStart> {
        let PoolWorker::Busy(slot) = self.worker(worker) else {
            return None;
        };
        self.pool.is_staffed();
        let scheduler = self.scheduler();
        let Place::Running(run) = scheduler.place(slot) else {
            unreachable!()
        };
        Some(ThreadStart {
            ticket: scheduler.ticket(slot),
            payload: run.job.payload,
            base: run.block.base,
            processors: run.job.processors,
        })
    }
}
