// Made from crates/wake_pool/src/lib.rt by checks/lib/erase.py. Change that file.
//! Sleep and wake of the threads that serve job lanes, as a pure state machine of atomic steps.
//!
//! A lane is a number of jobs. A worker is a thread that may sleep. A word has a bit for each of
//! its workers, set while it sleeps, and one bit that says that one of them searches. A thread has
//! a token, which it parks on, and a mailbox for a call. Any thread may put a job, take one, and
//! call another.
//!
//! Between two steps of a thread, other threads may make any steps. The proof holds for each order.

pub(crate) mod act;
pub(crate) mod layout;
pub(crate) mod phase;
pub(crate) mod wake;

pub use act::WakeAct;
pub use layout::{
    SEARCH, WORD_WORKERS, base, bit_of, has_bit, mail_at, token_at, word_count, word_of,
};
pub use phase::WakePhase;
pub use wake::every_schedule_is_served;
