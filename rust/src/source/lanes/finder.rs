// Made from crates/lanes/src/finder.rt by checks/lib/erase.py. Change that file.

use crate::source::lanes::handles::Worker;
use crate::source::lanes::record::LaneJob;
use crate::source::lanes::sleeping::Sleeper;

/// Where a worker is between two calls of `find`.
#[derive(Clone, Copy, Debug, PartialEq, Eq)]
pub enum At {
    /// It is idle.
    Idle,
    /// It has still to look whether another is to be woken, from this word of sleepers on.
    Waking(u64),
    /// It is the searcher of its word.
    Searching,
    /// It is the searcher, and has work.
    HasWork,
    /// It has set its bit and then seen a job. It takes its bit back.
    Returning,
    /// It has set its bit, and looks at its mailbox before it parks.
    Reading,
    /// It parks until it has its token.
    Parked,
}

/// What a worker found.
#[derive(Clone, Copy, Debug, PartialEq, Eq)]
pub enum Found {
    /// The lane, its job at the head, and the number of accepted jobs after it that the worker
    /// knows of.
    Job(u32, LaneJob, u64),
    /// All lanes are closed, and each job was taken.
    Ended,
    /// There was no job. The caller parks the thread until `awake` returns true.
    Park,
    /// The tries are over, or another worker is to be unparked. The caller calls again.
    Again,
}

/// The outcome of `find`.
#[derive(Clone, Copy, Debug, PartialEq, Eq)]
pub struct Finding {
    /// What the worker found.
    pub found: Found,
    /// A worker that was given its token. The caller unparks its thread.
    pub woken: Option<u32>,
}

/// A worker that finds jobs, and sleeps while there is none.
#[must_use = "the proved source spends each value of this type by a call"]
pub struct Finder {
    pub(crate) sleeper: Sleeper,
    pub(crate) at: At,
}

impl Worker {
    /// Returns the worker as one that finds jobs and sleeps between them. It is idle. Returns it
    /// back if the workers of its lanes may not sleep.
    ///
    /// # Clauses of the proved source
    ///
    /// - ensures id: `IfOk result (λ it. it.id ≡ self.id)`
    /// - ensures known: `IfOk result (λ it. it.known ≡ self.known)`
    /// - ensures deeds: `IfOk result (λ it. it.deeds ≡ self.deeds)`
    /// - ensures idle: `IfOk result (λ it. it.at ≡ AtIdle)`
    /// - ensures may_sleep: `IfOk result (λ _. self.known.number < self.id.plan.sleepers)`
    /// - ensures back: `IfErr result (λ it. it ≡ self)`
    /// - ensures not: `IfErr result (λ _. self.id.plan.sleepers ≤ self.known.number)`
    pub fn into_finder(self) -> Result<Finder, Worker> {
        if !self.sleeper.may_sleep() {
            return Err(self);
        }
        Ok(Finder {
            sleeper: self.into_sleeper(),
            at: At::Idle,
        })
    }
}

impl Finder {
    /// Returns the worker, if it is idle. Returns it back if not.
    ///
    /// # Clauses of the proved source
    ///
    /// - ensures id: `IfOk result (λ it. it.id ≡ self.id)`
    /// - ensures known: `IfOk result (λ it. it.known ≡ self.known)`
    /// - ensures deeds: `IfOk result (λ it. it.deeds ≡ self.deeds)`
    /// - ensures idle: `IfOk result (λ _. self.at ≡ AtIdle)`
    /// - ensures back: `IfErr result (λ it. it ≡ self)`
    /// - ensures not: `IfErr result (λ _. self.at ≢ AtIdle)`
    pub fn into_worker(self) -> Result<Worker, Finder> {
        if self.at != At::Idle {
            return Err(self);
        }
        let Finder { sleeper, at: _ } = self;
        Ok(sleeper.into_worker())
    }

    /// Returns the worker's number.
    ///
    /// # Clauses of the proved source
    ///
    /// - ensures: `result ≡ self.now.known.number`
    pub fn number(&self) -> u32 {
        self.sleeper.number()
    }

    /// Returns where the worker is.
    ///
    /// # Clauses of the proved source
    ///
    /// - ensures: `result ≡ self.now.at`
    pub fn at(&self) -> At {
        let at = self.at;
        at
    }

    /// Drops the worker. The lanes cannot end then.
    pub fn abandon(self) {
        let Finder { sleeper, at: _ } = self;
        sleeper.abandon();
    }
}
