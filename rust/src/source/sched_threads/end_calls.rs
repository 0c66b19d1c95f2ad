// Made from crates/sched_threads/src/end_calls.rt by checks/lib/erase.py. Change that file.
//! How a shared scheduler is emptied.

use crate::source::sched_threads::chair::Chair;
use crate::source::sched_threads::desk::{Desk, WrongState};
use crate::source::sched_threads::receipt::{NotNow, TurnReceipt};
use crate::source::sched_threads::threads::Threads;
use crate::source::sched_board::{BoardPhase, RestJob};

impl Desk {
    /// Removes the first waiting job in slots from one on, and gives it back. Returns `None` for it
    /// if there is none. It is an error while jobs may come.
    ///
    /// # Clauses of the proved source
    ///
    /// - ensures answer: `IsGivenBack from result self.old.board self.new.board`
    /// - ensures moves: `Moves None self.old.board self.new.board`
    /// - ensures chairs: `self.new.chairs ≡ self.old.chairs`
    pub fn give_back(&mut self, from: u32) -> Result<Option<RestJob>, WrongState> {
        if self.board.phase() == BoardPhase::Open {
            return Err(WrongState);
        }
        Ok(self.board.take_rest(from))
    }

    /// Returns whether a thread is a worker, or a job waits or runs.
    ///
    /// # Clauses of the proved source
    ///
    /// - ensures used: `IsTrue result → IsUsed self.now`
    /// - ensures unused: `IsFalse result → IsUnused self.now`
    pub fn is_used(&self) -> bool {
        if has_thread(&self.chairs) {
            return true;
        }
        let scheduler = self.board.scheduler();
        if scheduler.waiting() != 0 {
            return true;
        }
        scheduler.running() != 0
    }
}

// Returns whether a thread is one of these workers.
fn has_thread(chairs: &[Chair]) -> bool {
    for worker in 0..chairs.len() {
        if chairs[worker] != Chair::Free {
            return true;
        }
    }
    false
}

impl Threads {
    /// Removes the first waiting job in slots from one on, and gives it back. The job is `None` if
    /// there is none. It is an error while jobs may come. Fails and does nothing if another thread
    /// has the turn.
    ///
    /// # Clauses of the proved source
    ///
    /// - ensures made: `IfOk result (λ done. MadeTurn self.now done.1 (Untimed (OnBoards (IsGivenBack from done.0))))`
    /// - ensures barred: `IfErr result (λ not_now. WasBarred self.now not_now.receipt)`
    pub fn give_back(
        &self,
        from: u32,
    ) -> Result<(Result<Option<RestJob>, WrongState>, TurnReceipt), NotNow> {
        let mut seat = self.turns.arrive()?;
        let clocked = seat.slot_mut(&self.turns.table.shared, 0);
        let answer = clocked.desk.give_back(from);
        Ok((answer, self.turns.leave(seat)))
    }

    /// Returns whether a thread is a worker, or a job waits or runs. Fails and does nothing if
    /// another thread has the turn.
    ///
    /// # Clauses of the proved source
    ///
    /// - ensures made: `IfOk result (λ done. MadeTurn self.now done.1 (Untimed (LooksForUse done.0)))`
    /// - ensures barred: `IfErr result (λ not_now. WasBarred self.now not_now.receipt)`
    pub fn is_used(&self) -> Result<(bool, TurnReceipt), NotNow> {
        let mut seat = self.turns.arrive()?;
        let clocked = seat.slot_mut(&self.turns.table.shared, 0);
        let answer = clocked.desk.is_used();
        Ok((answer, self.turns.leave(seat)))
    }
}
