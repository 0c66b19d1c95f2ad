// Made from crates/sched_threads/src/block_calls.rt by checks/lib/erase.py. Change that file.
//! How blocks of a shared scheduler go out of service and come back.

use crate::source::sched_threads::receipt::{NotNow, TurnReceipt};
use crate::source::sched_threads::threads::Threads;
use crate::source::sched_board::{BlockError, Effect};

impl Threads {
    /// Takes a block out of service, and starts jobs for workers that wait. Fails and does nothing
    /// if another thread has the turn.
    ///
    /// # Clauses of the proved source
    ///
    /// - ensures made: `IfOk result (λ done. MadeTurn self.now done.1 (Timed now (λ time. OnBoards (IsTakeOutAnswer time base dim done.0))))`
    /// - ensures barred: `IfErr result (λ not_now. WasBarred self.now not_now.receipt)`
    pub fn take_out(
        &self,
        base: u64,
        dim: u32,
        now: u64,
    ) -> Result<(Result<Effect, BlockError>, TurnReceipt), NotNow> {
        let mut seat = self.turns.arrive()?;
        let clocked = seat.slot_mut(&self.turns.table.shared, 0);
        clocked.clock = now.max(clocked.clock);
        let answer = clocked.desk.take_out(base, dim, clocked.clock);
        Ok((answer, self.turns.leave(seat)))
    }

    /// Puts a block back into service, and starts jobs for workers that wait. Fails and does
    /// nothing if another thread has the turn.
    ///
    /// # Clauses of the proved source
    ///
    /// - ensures made: `IfOk result (λ done. MadeTurn self.now done.1 (Timed now (λ time. OnBoards (IsPutBackAnswer time base dim done.0))))`
    /// - ensures barred: `IfErr result (λ not_now. WasBarred self.now not_now.receipt)`
    pub fn put_back(
        &self,
        base: u64,
        dim: u32,
        now: u64,
    ) -> Result<(Result<Effect, BlockError>, TurnReceipt), NotNow> {
        let mut seat = self.turns.arrive()?;
        let clocked = seat.slot_mut(&self.turns.table.shared, 0);
        clocked.clock = now.max(clocked.clock);
        let answer = clocked.desk.put_back(base, dim, clocked.clock);
        Ok((answer, self.turns.leave(seat)))
    }
}
