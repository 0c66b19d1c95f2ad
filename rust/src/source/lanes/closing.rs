// Made from crates/lanes/src/closing.rt by checks/lib/erase.py. Change that file.

use crate::source::lanes::handles::{Closer, Note, Seat};
use crate::source::lanes::lanes::Lanes;
use crate::source::lanes::rule::Close;
use crate::source::lanes::sizes::{CLOSED, TAIL};

impl Lanes {
    // Closes the first open lane by one atomic step. Returns how many jobs it has accepted.
    fn close_lane(&self, seat: &mut Seat, lane: u32) -> u64 {
        let tail = self.word(lane, TAIL);
        self.table.shared.fetch_add::<Close>(seat, tail, CLOSED)
    }

    // Closes all lanes.
    fn close_all(&self, closer: Closer) -> Note {
        let Closer { mut seat, plan } = closer;
        let mut total: u64 = 0;
        for lane in 0..self.plan.sizes.lanes {
            let number = self.close_lane(&mut seat, lane);
            total = total.saturating_add(number);
        }
        Note { seat, plan, total }
    }

    // Calls a worker. If it sleeps, the worker is given its token.
    fn call_worker(&self, note: &mut Note, worker: u32) {
        let workers = self.plan.sleepers;
        crate::source::wake_calls::call(&self.table.shared, workers, &mut note.seat, worker);
        if crate::source::wake_calls::ring(&self.table.shared, workers, &mut note.seat, worker) {
            crate::source::wake_calls::give(&self.table.shared, workers, &mut note.seat, worker);
        }
    }

    // Calls each worker that may sleep.
    fn call_all(&self, note: &mut Note) {
        for worker in 0..self.plan.sleepers {
            self.call_worker(note, worker);
        }
    }

    /// Closes all lanes, one after another in their order, and then calls each worker that may
    /// sleep. The caller unparks the threads of all workers. A lane accepts no job after its close.
    /// It makes one atomic step for each lane, and at most three for each worker.
    ///
    /// # Clauses of the proved source
    ///
    /// - requires: `closer.id ≡ self.now`
    /// - ensures id: `result.id ≡ self.now`
    /// - ensures counts: `length result.counts ≡ self.now.plan.sizes.lanes`
    pub fn close(&self, closer: Closer) -> Note {
        let mut note = self.close_all(closer);
        self.call_all(&mut note);
        note
    }
}
