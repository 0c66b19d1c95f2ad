// Made from crates/lanes/src/submits.rt by checks/lib/erase.py. Change that file.

use crate::source::lanes::handles::Lane;
use crate::source::lanes::lanes::Lanes;
use crate::source::lanes::rule::{Accept, Look, PutDim, PutPayload, ReadCount};
use crate::source::lanes::sizes::{CLOSED, HEAD, MAX_JOBS, TAIL};
use crate::source::wake_calls::{Wake, give, wake_check};
use crate::source::wake_pool::word_count;

/// The outcome of a submit.
#[derive(Clone, Copy, Debug, PartialEq, Eq)]
pub enum Submitted {
    /// The job was accepted, as the lane's job with this number.
    Accepted(u64),
    /// The lane was full.
    Full,
    /// The lane is closed.
    Closed,
    /// The lane has accepted `MAX_JOBS` jobs.
    Spent,
}

impl Lanes {
    // Returns the count of accepted jobs; an error beside the closed mark.
    pub(crate) fn read_count(&self, lane: &mut Lane) -> Result<u64, u64> {
        let tail = self.word(lane.number, TAIL);
        let found = self.table.shared.load::<ReadCount>(&mut lane.seat, tail);
        if found < CLOSED {
            Ok(found)
        } else {
            Err(found - CLOSED)
        }
    }

    // Returns whether there is room for the job with the number `count`, by what the producer saw
    // earlier or by a look.
    pub(crate) fn has_room(&self, lane: &mut Lane, count: u64) -> bool {
        if count < lane.seen + self.plan.sizes.capacity {
            return true;
        }
        self.look_for_room(lane, count)
    }

    // The same by a look.
    fn look_for_room(&self, lane: &mut Lane, count: u64) -> bool {
        let head = self.word(lane.number, HEAD);
        let taken = self.table.shared.load::<Look>(&mut lane.seat, head);
        if count - taken < self.plan.sizes.capacity {
            lane.seen = taken;
            true
        } else {
            false
        }
    }

    // Puts the payload in the cell of the lane's next job.
    pub(crate) fn put_payload(&self, lane: &mut Lane, count: u64, cell: usize, payload: u64) {
        let word = self.word(lane.number, cell);
        self.table
            .shared
            .store::<PutPayload>(&mut lane.seat, word, payload);
    }

    // Puts the dimension in the cell after it.
    pub(crate) fn put_dim(&self, lane: &mut Lane, count: u64, cell: usize, dim: u32) {
        let word = self.word(lane.number, cell + 1);
        self.table
            .shared
            .store::<PutDim>(&mut lane.seat, word, dim as u64);
    }

    // Counts the job that was put, unless the lane is closed.
    pub(crate) fn accept(&self, lane: &mut Lane, count: u64, _payload: u64, _dim: u32) -> bool {
        let tail = self.word(lane.number, TAIL);
        let found = self
            .table
            .shared
            .compare_exchange::<Accept>(&mut lane.seat, tail, count, count + 1);
        let accepted = found == count;
        if accepted {
            lane.next = 0;
        }
        accepted
    }

    /// Submits a job with this payload and dimension. It makes at most five atomic steps. The last
    /// one is the exchange that counts the job, if it is accepted.
    ///
    /// # Clauses of the proved source
    ///
    /// - requires: `lane.old.id ≡ self.now`
    /// - ensures id: `lane.new.id ≡ self.now`
    /// - ensures deeds: `lane.new.deeds ≡ lane.old.deeds`
    /// - ensures known: `Submits payload dim lane.old.known result lane.new.known`
    /// - ensures keeps: `SubmitKeeps lane.old.known lane.new.known`
    /// - ensures next: `LooksNext result lane.old.next lane.new.next`
    pub fn submit(&self, lane: &mut Lane, payload: u64, dim: u32) -> Submitted {
        let Ok(count) = self.read_count(lane) else {
            return Submitted::Closed;
        };
        if count >= MAX_JOBS {
            return Submitted::Spent;
        }
        if !self.has_room(lane, count) {
            return Submitted::Full;
        }
        let cell = self.cell(count);
        self.put_payload(lane, count, cell, payload);
        self.put_dim(lane, count, cell, dim);
        if self.accept(lane, count, payload, dim) {
            Submitted::Accepted(count)
        } else {
            Submitted::Closed
        }
    }

    /// Looks whether a worker searches, after a job was accepted. If none does, it wakes one
    /// sleeper, by at most this number of tries. The caller unparks the worker that it returns.
    /// With `Again` it has still to look.
    ///
    /// # Clauses of the proved source
    ///
    /// - requires id: `lane.old.id ≡ self.now`
    /// - ensures id: `lane.new.id ≡ self.now`
    /// - ensures deeds: `lane.new.deeds ≡ after_wake result lane.old.deeds`
    /// - ensures known: `lane.new.known ≡ lane.old.known`
    /// - ensures worker: `(x : ℕ) → result ≡ WokenWorker x → x < self.now.plan.sleepers`
    /// - ensures nobody: `result ≡ Nobody → lane.new.next ≡ sleepers.word_count self.now.plan.sleepers`
    /// - ensures woken: `(x : ℕ) → result ≡ WokenWorker x → lane.new.next ≡ sleepers.word_count self.now.plan.sleepers`
    /// - ensures again: `(b : ℕ) → result ≡ WakeAgain b → lane.new.next ≡ b`
    /// - ensures left: `(b : ℕ) → result ≡ WakeAgain b → b < sleepers.word_count self.now.plan.sleepers`
    pub fn wake_one(&self, lane: &mut Lane, tries: u32) -> Wake {
        let workers = self.plan.sleepers;
        let words = word_count(workers);
        let woken = wake_check(
            &self.table.shared,
            workers,
            &mut lane.seat,
            lane.next,
            tries,
        );
        if let Wake::Worker(worker) = woken {
            give(&self.table.shared, workers, &mut lane.seat, worker);
            lane.next = words;
            return Wake::Worker(worker);
        }
        if let Wake::Again(left) = woken {
            lane.next = left;
            return Wake::Again(left);
        }
        lane.next = words;
        Wake::Nobody
    }
}
