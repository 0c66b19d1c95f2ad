// Made from crates/sched_threads/src/desk_calls.rt by checks/lib/erase.py. Change that file.
//! What threads that are no workers ask of a desk.

use crate::source::sched_threads::desk::Desk;
use crate::source::sched_board::{BlockError, CancelError, Effect, JobRequest, Scheduler, SubmitError};

impl Desk {
    /// Returns the scheduler, to read it.
    ///
    /// # Clauses of the proved source
    ///
    /// - ensures: `result.now ≡ self.now.board.pool.core`
    pub fn scheduler(&self) -> &Scheduler {
        self.board.scheduler()
    }

    /// Submits a job, and starts jobs for workers that wait. Returns the job's ticket.
    ///
    /// # Clauses of the proved source
    ///
    /// - ensures answer: `IsSubmitAnswer now request result self.old.board self.new.board`
    /// - ensures moves: `Moves None self.old.board self.new.board`
    /// - ensures chairs: `self.new.chairs ≡ self.old.chairs`
    pub fn submit(&mut self, request: JobRequest, now: u64) -> Result<(u64, Effect), SubmitError> {
        self.board.accept(request, now)
    }

    /// Removes a waiting job, and starts jobs for workers that wait. Returns the number that came
    /// with the job.
    ///
    /// # Clauses of the proved source
    ///
    /// - ensures answer: `IsCancelAnswer now ticket result self.old.board self.new.board`
    /// - ensures moves: `Moves None self.old.board self.new.board`
    /// - ensures chairs: `self.new.chairs ≡ self.old.chairs`
    pub fn cancel(&mut self, ticket: u64, now: u64) -> Result<(u64, Effect), CancelError> {
        self.board.recall(ticket, now)
    }

    /// Takes a block out of service, and starts jobs for workers that wait.
    ///
    /// # Clauses of the proved source
    ///
    /// - ensures answer: `IsTakeOutAnswer now base dim result self.old.board self.new.board`
    /// - ensures moves: `Moves None self.old.board self.new.board`
    /// - ensures chairs: `self.new.chairs ≡ self.old.chairs`
    pub fn take_out(&mut self, base: u64, dim: u32, now: u64) -> Result<Effect, BlockError> {
        self.board.take_out(base, dim, now)
    }

    /// Puts a block back into service, and starts jobs for workers that wait.
    ///
    /// # Clauses of the proved source
    ///
    /// - ensures answer: `IsPutBackAnswer now base dim result self.old.board self.new.board`
    /// - ensures moves: `Moves None self.old.board self.new.board`
    /// - ensures chairs: `self.new.chairs ≡ self.old.chairs`
    pub fn put_back(&mut self, base: u64, dim: u32, now: u64) -> Result<Effect, BlockError> {
        self.board.put_back(base, dim, now)
    }

    /// Lets no job come any more. Those that wait start, or are given back by `give_back`. Returns
    /// `None` only if no job may come already.
    ///
    /// # Clauses of the proved source
    ///
    /// - ensures answer: `IsCloseAnswer now do_start result self.old.board self.new.board`
    /// - ensures moves: `Moves None self.old.board self.new.board`
    /// - ensures chairs: `self.new.chairs ≡ self.old.chairs`
    pub fn close(&mut self, do_start: bool, now: u64) -> Option<Effect> {
        self.board.shut(do_start, now)
    }

    /// Starts jobs for workers that wait.
    ///
    /// # Clauses of the proved source
    ///
    /// - ensures answer: `IsSettled now result self.old.board self.new.board`
    /// - ensures moves: `Moves None self.old.board self.new.board`
    /// - ensures chairs: `self.new.chairs ≡ self.old.chairs`
    pub fn settle(&mut self, now: u64) -> Effect {
        self.board.settle(now)
    }
}
