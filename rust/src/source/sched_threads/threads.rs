// Made from crates/sched_threads/src/threads.rt by checks/lib/erase.py. Change that file.
//! The scheduler that threads share.

use crate::source::sched_threads::desk::Desk;
use crate::source::sched_threads::receipt::{NotNow, TurnReceipt};
use crate::source::sched_threads::table::TurnTable;
use crate::source::cube_shape::MAX_BITMAP_DIM;
use crate::source::kit::fixed_vec::Store;
use crate::source::sched_board::{
    CancelError, Effect, JobRequest, MAX_SLOTS, MAX_WORKERS, SubmitError, ThreadSizes,
};
use crate::source::kit::alloc::{AllocError, Global};

/// A scheduler that threads share by reference.
pub struct Threads {
    pub(crate) turns: TurnTable,
}

impl Threads {
    /// Creates a scheduler of these sizes. No job waits or runs, and no thread is a worker.
    ///
    /// # Clauses of the proved source
    ///
    /// - requires dim: `sizes.dim ≤ MAX_BITMAP_DIM`
    /// - requires jobs: `sizes.jobs ≤ MAX_SLOTS`
    /// - requires workers: `sizes.workers ≤ MAX_WORKERS`
    /// - ensures: `IfOk result (λ made. sizes_of made.turns ≡ sizes)`
    pub fn new(alloc: Global, sizes: ThreadSizes) -> Result<Threads, AllocError> {
        let mut store = Store::heap(alloc);
        let desk = Desk::new(&mut store, sizes)?;
        let turns = TurnTable::new(alloc, desk, &sizes)?;
        Ok(Threads { turns })
    }

    /// Submits a job, and starts jobs for workers that wait. Returns the job's ticket, or why it is
    /// not accepted. Fails and does nothing if another thread has the turn.
    ///
    /// # Clauses of the proved source
    ///
    /// - ensures made: `IfOk result (λ done. MadeTurn self.now done.1 (Timed now (λ time. OnBoards (IsSubmitAnswer time request done.0))))`
    /// - ensures barred: `IfErr result (λ not_now. WasBarred self.now not_now.receipt)`
    pub fn submit(
        &self,
        request: JobRequest,
        now: u64,
    ) -> Result<(Result<(u64, Effect), SubmitError>, TurnReceipt), NotNow> {
        let mut seat = self.turns.arrive()?;
        let clocked = seat.slot_mut(&self.turns.table.shared, 0);
        clocked.clock = now.max(clocked.clock);
        let answer = clocked.desk.submit(request, clocked.clock);
        Ok((answer, self.turns.leave(seat)))
    }

    /// Removes a waiting job, and starts jobs for workers that wait. Returns the number that came
    /// with the job, or why it is not removed. Fails and does nothing if another thread has the
    /// turn.
    ///
    /// # Clauses of the proved source
    ///
    /// - ensures made: `IfOk result (λ done. MadeTurn self.now done.1 (Timed now (λ time. OnBoards (IsCancelAnswer time ticket done.0))))`
    /// - ensures barred: `IfErr result (λ not_now. WasBarred self.now not_now.receipt)`
    pub fn cancel(
        &self,
        ticket: u64,
        now: u64,
    ) -> Result<(Result<(u64, Effect), CancelError>, TurnReceipt), NotNow> {
        let mut seat = self.turns.arrive()?;
        let clocked = seat.slot_mut(&self.turns.table.shared, 0);
        clocked.clock = now.max(clocked.clock);
        let answer = clocked.desk.cancel(ticket, clocked.clock);
        Ok((answer, self.turns.leave(seat)))
    }

    /// Ends the scheduler. Returns the desk, unless a thread never ended its turn.
    ///
    /// # Clauses of the proved source
    ///
    /// - ensures ended: `IfSome result (IsEnd (sizes_of self.turns))`
    /// - ensures leads: `IfSome result (λ desk. Leads (sizes_of self.turns) desk.board)`
    pub fn end(self) -> Option<Desk> {
        let Threads { turns } = self;
        turns.end()
    }
}
