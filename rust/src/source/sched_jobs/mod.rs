// Made from crates/sched_jobs/src/lib.rt by checks/lib/erase.py. Change that file.
//! The jobs of a scheduler: which wait, which run, and which slot each one is in.
//!
//! This is the part of a state of `sched_law` that is about jobs. Each call says what it does to
//! each state that the jobs show. Only `new` allocates memory. Waiting jobs are in queues, one for
//! each class and dimension, all in one slice of nodes.
//!
//! A queue keeps its items in order of their keys. It finds the oldest item whose estimate is
//! within a limit, and counts those before a key. A call takes as many steps as the tree is high.
//! A queue is a crit-bit tree whose leaves are the items. A fork lies in the slot of the first leaf
//! to its right, so each slot has room for one leaf and one fork.

pub(crate) mod counts;
pub(crate) mod jobs;
pub(crate) mod law;
pub(crate) mod line_table;
pub(crate) mod lines;
pub(crate) mod nodes;
pub(crate) mod queues;
pub(crate) mod search;
pub(crate) mod slots;
pub(crate) mod trees;

pub use jobs::Jobs;
pub use law::tickets_differ;
pub use line_table::LineTable;
pub use lines::CLASSES;
pub use nodes::MAX_SLOTS;
pub use crate::source::sched_law::{NEVER, Place, SchedJob, SchedRun, SchedWait};
pub use slots::{MAX_GENERATION, Slot};
