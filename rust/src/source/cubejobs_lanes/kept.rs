// Made from crates/cubejobs_lanes/src/kept.rt by checks/lib/erase.py. Change that file.
//! Handles of lanes that are dropped by being abandoned.

use crate::source::lanes::{Lane, Note, Worker};

/// A lane that no handle has.
pub struct KeptLane {
    pub lane: Lane,
}

/// A worker that no handle has.
pub struct KeptWorker {
    pub worker: Worker,
}

/// The note of the close.
pub struct KeptNote {
    pub note: Note,
}

impl KeptLane {
    /// Returns the lane.
    ///
    /// # Clauses of the proved source
    ///
    /// - ensures: `result ≡ self.lane`
    pub fn into_lane(self) -> Lane {
        let KeptLane { lane } = self;
        lane
    }
}

impl KeptWorker {
    /// Returns the worker.
    ///
    /// # Clauses of the proved source
    ///
    /// - ensures: `result ≡ self.worker`
    pub fn into_worker(self) -> Worker {
        let KeptWorker { worker } = self;
        worker
    }
}

impl KeptNote {
    /// Returns the note.
    ///
    /// # Clauses of the proved source
    ///
    /// - ensures: `result ≡ self.note`
    pub fn into_note(self) -> Note {
        let KeptNote { note } = self;
        note
    }
}
