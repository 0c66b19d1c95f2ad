// Made from crates/lanes/src/handles.rt by checks/lib/erase.py. Change that file.

// What the callers of lanes hold. Only the members of new lanes can be dropped: the other handles
// are consumed by the end of the lanes.
use crate::source::lanes::sizes::Plan;
use crate::source::lanes::sleeping::Sleeper;
use crate::source::lanes::view::Both;

pub type Seat = crate::source::kit::atomic_table::Seat<(), Both>;

/// The handles of new lanes that are not dealt out yet.
pub struct Members {
    pub(crate) seat: Seat,
    pub(crate) plan: Plan,
    pub(crate) dealt_lanes: u32,
    pub(crate) dealt_workers: u32,
}

/// The right to submit jobs to one lane.
#[must_use = "the proved source spends each value of this type by a call"]
pub struct Lane {
    pub(crate) seat: Seat,
    pub(crate) plan: Plan,
    pub(crate) number: u32,
    // The number of jobs that were taken at its latest look, so that it need not look at each job.
    pub(crate) seen: u64,
    // The word of sleepers that it looks at next.
    pub(crate) next: u64,
}

/// The right to take jobs from every lane.
#[must_use = "the proved source spends each value of this type by a call"]
pub struct Worker {
    pub(crate) sleeper: Sleeper,
}

/// The right to close all lanes. There is one.
#[must_use = "the proved source spends each value of this type by a call"]
pub struct Closer {
    pub(crate) seat: Seat,
    pub(crate) plan: Plan,
}

/// Shows that all lanes are closed.
#[must_use = "the proved source spends each value of this type by a call"]
pub struct Note {
    pub(crate) seat: Seat,
    pub(crate) plan: Plan,
    pub(crate) total: u64,
}

/// The producers and workers of closed lanes that have come back, with the note.
#[must_use = "the proved source spends each value of this type by a call"]
pub struct LanesEnd {
    pub(crate) seat: Seat,
    pub(crate) plan: Plan,
}

impl Members {
    /// Returns the closer, once all lanes and all workers are dealt out.
    ///
    /// # Clauses of the proved source
    ///
    /// - requires lanes: `self.dealt_lanes ≡ self.id.plan.sizes.lanes`
    /// - requires workers: `self.dealt_workers ≡ self.id.plan.sizes.workers`
    /// - ensures: `result.id ≡ self.id`
    pub fn into_closer(self) -> Closer {
        let Members {
            seat,
            plan,
            dealt_lanes: _,
            dealt_workers: _,
        } = self;
        Closer { seat, plan }
    }
}

impl Note {
    /// Returns how many jobs all lanes have accepted, and `2^64 - 1` if there are more.
    ///
    /// # Clauses of the proved source
    ///
    /// - ensures: `result ≡ min (sum self.now.counts) (2 ^ 64 - 1)`
    pub fn number(&self) -> u64 {
        self.total
    }

    /// Drops the note. Its lanes cannot end then.
    pub fn abandon(self) {
        let Note {
            seat,
            plan: _,
            total: _,
        } = self;
        drop(seat);
    }

    /// Returns the note with no producer and no worker yet.
    ///
    /// # Clauses of the proved source
    ///
    /// - ensures id: `result.id ≡ self.id`
    /// - ensures counts: `result.counts ≡ self.counts`
    /// - ensures lanes: `result.lanes ≡ []`
    /// - ensures workers: `result.workers ≡ []`
    pub fn into_end(self) -> LanesEnd {
        let Note {
            seat,
            plan,
            total: _,
        } = self;
        LanesEnd { seat, plan }
    }
}

impl Lane {
    /// Returns the lane's number.
    ///
    /// # Clauses of the proved source
    ///
    /// - ensures: `result ≡ self.now.known.number`
    pub fn number(&self) -> u32 {
        self.number
    }

    /// Drops the lane. The lanes cannot end then.
    pub fn abandon(self) {
        let Lane {
            seat,
            plan: _,
            number: _,
            seen: _,
            next: _,
        } = self;
        drop(seat);
    }
}

impl Worker {
    /// Returns the worker's number.
    ///
    /// # Clauses of the proved source
    ///
    /// - ensures: `result ≡ self.now.known.number`
    pub fn number(&self) -> u32 {
        self.sleeper.number()
    }

    /// Drops the worker. The lanes cannot end then.
    pub fn abandon(self) {
        let Worker { sleeper } = self;
        sleeper.abandon();
    }
}
