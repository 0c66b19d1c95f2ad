// Made from crates/cubejobs_sched/src/state.rt by checks/lib/erase.py. Change that file.
//! The content of a handle.

use crate::source::cubejobs_sched::ownership::Ownership;

/// The content of a handle.
pub(crate) enum State {
    /// A scheduler.
    Threads(Ownership),
    /// None: a call has borrowed the scheduler.
    Taken,
}
