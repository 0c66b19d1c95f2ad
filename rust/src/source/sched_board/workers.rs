// Made from crates/sched_board/src/workers.rt by checks/lib/erase.py. Change that file.
//! What workers do.

/// The most workers that a pool may have.
pub const MAX_WORKERS: u32 = 1 << 16;

/// What a worker does.
#[derive(Clone, Copy, Debug, PartialEq, Eq, Hash)]
pub enum PoolWorker {
    /// It has no job, and waits for none.
    Away,
    /// It waits for a job.
    Waiting,
    /// It has the job of this slot.
    Busy(u32),
}

/// Returns what a worker does.
pub(crate) fn state_at(workers: &[PoolWorker], number: u32) -> PoolWorker {
    workers[number as usize]
}

/// Writes what a worker does.
pub(crate) fn put_state(workers: &mut [PoolWorker], number: u32, state: PoolWorker) {
    workers[number as usize] = state;
}

/// Returns the first worker from one on that waits.
pub(crate) fn first_waiting(workers: &[PoolWorker], from: u32) -> Option<u32> {
    for number in from..workers.len() as u32 {
        if state_at(workers, number) == PoolWorker::Waiting {
            return Some(number);
        }
    }
    None
}
