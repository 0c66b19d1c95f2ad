// Made from crates/sched_threads/src/look_calls.rt by checks/lib/erase.py. Change that file.
//! What threads read of a shared scheduler.

use crate::source::sched_threads::counts::SchedCounts;
use crate::source::sched_threads::desk::Desk;
use crate::source::sched_threads::receipt::{NotNow, TurnReceipt};
use crate::source::sched_threads::threads::Threads;
use crate::source::sched_board::Forecast;

impl Desk {
    /// Returns what is known of when and where the job with a ticket runs. Returns `None` only if
    /// the ticket is of no job, or of one that is over.
    ///
    /// # Clauses of the proved source
    ///
    /// - ensures: `IsLookAnswer ticket result self.now.board.pool.core`
    pub fn look(&self, ticket: u64) -> Option<Forecast> {
        let scheduler = self.board.scheduler();
        let slot = scheduler.find(ticket)?;
        Some(scheduler.forecast(slot))
    }

    /// Returns how much the scheduler does.
    ///
    /// # Clauses of the proved source
    ///
    /// - ensures: `HasCounts result self.now.board.pool.core`
    pub fn counts(&self) -> SchedCounts {
        let scheduler = self.board.scheduler();
        SchedCounts {
            waiting: scheduler.waiting(),
            running: scheduler.running(),
            asked: scheduler.asked(),
            held: scheduler.held(),
            occupied: scheduler.occupied(),
        }
    }
}

impl Threads {
    /// Returns what is known of when and where the job with a ticket runs. That is `None` if the
    /// ticket is of no job, or of one that is over. Fails and does nothing if another thread has
    /// the turn.
    ///
    /// # Clauses of the proved source
    ///
    /// - ensures made: `IfOk result (λ done. MadeTurn self.now done.1 (Untimed (Reads (IsLookAnswer ticket done.0))))`
    /// - ensures barred: `IfErr result (λ not_now. WasBarred self.now not_now.receipt)`
    pub fn look(&self, ticket: u64) -> Result<(Option<Forecast>, TurnReceipt), NotNow> {
        let mut seat = self.turns.arrive()?;
        let clocked = seat.slot_mut(&self.turns.table.shared, 0);
        let answer = clocked.desk.look(ticket);
        Ok((answer, self.turns.leave(seat)))
    }

    /// Returns how much the scheduler does. Fails and does nothing if another thread has the turn.
    ///
    /// # Clauses of the proved source
    ///
    /// - ensures made: `IfOk result (λ done. MadeTurn self.now done.1 (Untimed (Reads (HasCounts done.0))))`
    /// - ensures barred: `IfErr result (λ not_now. WasBarred self.now not_now.receipt)`
    pub fn counts(&self) -> Result<(SchedCounts, TurnReceipt), NotNow> {
        let mut seat = self.turns.arrive()?;
        let clocked = seat.slot_mut(&self.turns.table.shared, 0);
        let answer = clocked.desk.counts();
        Ok((answer, self.turns.leave(seat)))
    }
}
