// Made from crates/cubejobs_sched/src/codes.rt by checks/lib/erase.py. Change that file.
//! The codes of the answers, the version of the header, and the tag of a handle.

/// The version of the header that this library is for. Any change of its structs or functions gets
/// another version.
pub const VERSION: u32 = 1;

/// The tag of an open handle. A handle with any other tag is shut.
pub const OPEN: u64 = 0x6375_6265_7363_6864;

/// The call succeeded.
pub const DONE: u32 = 0;

/// Another thread has the turn. Nothing happened: call again.
pub const NOT_NOW: u32 = 2;

/// Memory ran out.
pub const OUT_OF_MEMORY: u32 = 11;

/// The handle is not that of an open scheduler.
pub const NOT_OPEN: u32 = 12;

/// The handle is open already.
pub const ALREADY_OPEN: u32 = 14;

/// The caller's header has another version than this library.
pub const BAD_VERSION: u32 = 15;

/// No job may come any more, or none will start.
pub const CLOSED: u32 = 17;

/// There is no job.
pub const NO_JOB: u32 = 19;

/// A number is out of range.
pub const OUT_OF_RANGE: u32 = 45;

/// The scheduler has as many jobs as it may have, or each worker is a thread.
pub const FULL: u32 = 46;

/// The call does not fit what the worker, the job or the block does, or jobs may still come.
pub const WRONG_STATE: u32 = 47;

/// A thread is a worker, a job waits or runs, or a thread has the turn.
pub const IN_USE: u32 = 49;
