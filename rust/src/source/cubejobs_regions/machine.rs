// Made from crates/cubejobs_regions/src/machine.rt by checks/lib/erase.py. Change that file.
//! A machine, as one handle owns it.

use crate::source::cubejobs_regions::ownership::Ownership;

/// A machine, and the processor at which the searches of its handle begin.
pub(crate) struct Machine {
    pub(crate) owner: Ownership,
    pub(crate) start: u64,
    // Which thread the next handle is for.
    pub(crate) next: u32,
}
