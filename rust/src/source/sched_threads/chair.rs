// Made from crates/sched_threads/src/chair.rt by checks/lib/erase.py. Change that file.
//! What is known of a worker's thread.

/// What is known of a worker's thread.
#[derive(Clone, Copy, Debug, PartialEq, Eq, Hash)]
pub enum Chair {
    /// No thread is this worker.
    Free,
    /// Its thread has no job, and waits for none.
    Out,
    /// Its thread waits for a job, or has one that it has not seen.
    Asked,
    /// Its thread has a job.
    Has,
}
