// Made from crates/sched_threads/src/worker_calls.rt by checks/lib/erase.py. Change that file.
//! What threads that are workers ask of a shared scheduler.

use crate::source::sched_threads::desk::WrongState;
use crate::source::sched_threads::receipt::{NotNow, TurnReceipt};
use crate::source::sched_threads::threads::Threads;
use crate::source::sched_board::Served;

impl Threads {
    /// Returns a worker that no thread is, for a thread that is this worker from now on. The worker
    /// is `None` if each is a thread. Fails and does nothing if another thread has the turn.
    ///
    /// # Clauses of the proved source
    ///
    /// - ensures made: `IfOk result (λ done. MadeTurn self.now done.1 (Untimed (IsSitAnswer done.0)))`
    /// - ensures barred: `IfErr result (λ not_now. WasBarred self.now not_now.receipt)`
    pub fn sit(&self) -> Result<(Option<u32>, TurnReceipt), NotNow> {
        let mut seat = self.turns.arrive()?;
        let clocked = seat.slot_mut(&self.turns.table.shared, 0);
        let answer = clocked.desk.sit();
        Ok((answer, self.turns.leave(seat)))
    }

    /// Ends the worker's job, if it has one, and lets the worker wait for the next. Starts jobs for
    /// workers that wait. Returns what the worker gets. Fails and does nothing if another thread
    /// has the turn.
    ///
    /// # Clauses of the proved source
    ///
    /// - ensures made: `IfOk result (λ done. MadeTurn self.now done.1 (Timed now (λ time. IsNextAnswer time worker done.0)))`
    /// - ensures barred: `IfErr result (λ not_now. WasBarred self.now not_now.receipt)`
    pub fn next(
        &self,
        worker: u32,
        now: u64,
    ) -> Result<(Result<Served, WrongState>, TurnReceipt), NotNow> {
        let mut seat = self.turns.arrive()?;
        let clocked = seat.slot_mut(&self.turns.table.shared, 0);
        clocked.clock = now.max(clocked.clock);
        let answer = clocked.desk.next(worker, clocked.clock);
        Ok((answer, self.turns.leave(seat)))
    }

    /// Lets a worker wait no longer. If it got a job meanwhile, it has that one. Starts jobs for
    /// workers that wait. Fails and does nothing if another thread has the turn.
    ///
    /// # Clauses of the proved source
    ///
    /// - ensures made: `IfOk result (λ done. MadeTurn self.now done.1 (Timed now (λ time. IsGiveUpAnswer time worker done.0)))`
    /// - ensures barred: `IfErr result (λ not_now. WasBarred self.now not_now.receipt)`
    pub fn give_up(
        &self,
        worker: u32,
        now: u64,
    ) -> Result<(Result<Served, WrongState>, TurnReceipt), NotNow> {
        let mut seat = self.turns.arrive()?;
        let clocked = seat.slot_mut(&self.turns.table.shared, 0);
        clocked.clock = now.max(clocked.clock);
        let answer = clocked.desk.give_up(worker, clocked.clock);
        Ok((answer, self.turns.leave(seat)))
    }

    /// Ends the job of a worker. Starts jobs for workers that wait. Fails and does nothing if
    /// another thread has the turn.
    ///
    /// # Clauses of the proved source
    ///
    /// - ensures made: `IfOk result (λ done. MadeTurn self.now done.1 (Timed now (λ time. IsDoneAnswer time worker done.0)))`
    /// - ensures barred: `IfErr result (λ not_now. WasBarred self.now not_now.receipt)`
    pub fn done(
        &self,
        worker: u32,
        now: u64,
    ) -> Result<(Result<Served, WrongState>, TurnReceipt), NotNow> {
        let mut seat = self.turns.arrive()?;
        let clocked = seat.slot_mut(&self.turns.table.shared, 0);
        clocked.clock = now.max(clocked.clock);
        let answer = clocked.desk.done(worker, clocked.clock);
        Ok((answer, self.turns.leave(seat)))
    }

    /// Lets a thread be its worker no longer. The worker's job ends. If the worker waits, it waits
    /// no longer. Starts jobs for workers that wait. Changes nothing if the worker got a job that
    /// the thread has not seen. Fails and does nothing if another thread has the turn.
    ///
    /// # Clauses of the proved source
    ///
    /// - ensures made: `IfOk result (λ done. MadeTurn self.now done.1 (Timed now (λ time. IsRiseAnswer time worker done.0)))`
    /// - ensures barred: `IfErr result (λ not_now. WasBarred self.now not_now.receipt)`
    pub fn rise(
        &self,
        worker: u32,
        now: u64,
    ) -> Result<(Result<Served, WrongState>, TurnReceipt), NotNow> {
        let mut seat = self.turns.arrive()?;
        let clocked = seat.slot_mut(&self.turns.table.shared, 0);
        clocked.clock = now.max(clocked.clock);
        let answer = clocked.desk.rise(worker, clocked.clock);
        Ok((answer, self.turns.leave(seat)))
    }

    /// Lets no thread be a worker whose thread is gone. The worker's job ends, also one that the
    /// thread has not seen. If the worker waits, it waits no longer. Starts jobs for workers that
    /// wait. Fails and does nothing if another thread has the turn.
    ///
    /// # Clauses of the proved source
    ///
    /// - ensures made: `IfOk result (λ done. MadeTurn self.now done.1 (Timed now (λ time. IsLoseAnswer time worker done.0)))`
    /// - ensures barred: `IfErr result (λ not_now. WasBarred self.now not_now.receipt)`
    pub fn lose(
        &self,
        worker: u32,
        now: u64,
    ) -> Result<(Result<Served, WrongState>, TurnReceipt), NotNow> {
        let mut seat = self.turns.arrive()?;
        let clocked = seat.slot_mut(&self.turns.table.shared, 0);
        clocked.clock = now.max(clocked.clock);
        let answer = clocked.desk.lose(worker, clocked.clock);
        Ok((answer, self.turns.leave(seat)))
    }
}
