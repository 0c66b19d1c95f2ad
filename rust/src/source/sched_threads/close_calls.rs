// Made from crates/sched_threads/src/close_calls.rt by checks/lib/erase.py. Change that file.
//! How a shared scheduler closes.

use crate::source::sched_threads::receipt::{NotNow, TurnReceipt};
use crate::source::sched_threads::threads::Threads;
use crate::source::sched_board::Effect;

impl Threads {
    /// Lets no job come any more. Those that wait start, or are given back by `give_back`. The
    /// effect is `None` if no job may come already. Fails and does nothing if another thread has
    /// the turn.
    ///
    /// # Clauses of the proved source
    ///
    /// - ensures made: `IfOk result (λ done. MadeTurn self.now done.1 (Timed now (λ time. OnBoards (IsCloseAnswer time do_start done.0))))`
    /// - ensures barred: `IfErr result (λ not_now. WasBarred self.now not_now.receipt)`
    pub fn close(&self, do_start: bool, now: u64) -> Result<(Option<Effect>, TurnReceipt), NotNow> {
        let mut seat = self.turns.arrive()?;
        let clocked = seat.slot_mut(&self.turns.table.shared, 0);
        clocked.clock = now.max(clocked.clock);
        let answer = clocked.desk.close(do_start, clocked.clock);
        Ok((answer, self.turns.leave(seat)))
    }

    /// Starts jobs for workers that wait. Fails and does nothing if another thread has the turn.
    ///
    /// # Clauses of the proved source
    ///
    /// - ensures made: `IfOk result (λ done. MadeTurn self.now done.1 (Timed now (λ time. OnBoards (IsSettled time done.0))))`
    /// - ensures barred: `IfErr result (λ not_now. WasBarred self.now not_now.receipt)`
    pub fn settle(&self, now: u64) -> Result<(Effect, TurnReceipt), NotNow> {
        let mut seat = self.turns.arrive()?;
        let clocked = seat.slot_mut(&self.turns.table.shared, 0);
        clocked.clock = now.max(clocked.clock);
        let answer = clocked.desk.settle(clocked.clock);
        Ok((answer, self.turns.leave(seat)))
    }
}
