// Made from crates/cubejobs_regions/src/state.rt by checks/lib/erase.py. Change that file.
//! The content of a machine's handle.

use crate::source::cubejobs_regions::machine::Machine;

/// The content of a handle.
pub(crate) enum State {
    /// A machine.
    Machine(Machine),
    /// None: a call has borrowed the machine.
    Taken,
}
