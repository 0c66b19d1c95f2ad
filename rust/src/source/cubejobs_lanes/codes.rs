// Made from crates/cubejobs_lanes/src/codes.rt by checks/lib/erase.py. Change that file.
//! The codes of the answers, the version of the header, and the tag of open handles.

/// The version of the header that this library is for. Any change of its structs or functions gets
/// another version.
pub const VERSION: u32 = 4;

/// The tag of an open handle. A handle with any other tag is shut.
pub const OPEN: u64 = 0x6375_6265_6c61_6e65;

/// The call succeeded.
pub const DONE: u32 = 0;

/// Memory ran out.
pub const OUT_OF_MEMORY: u32 = 11;

/// The handle is not open.
pub const NOT_OPEN: u32 = 12;

/// The handle is of another kind.
pub const OTHER_KIND: u32 = 13;

/// The handle that is to be opened is open.
pub const ALREADY_OPEN: u32 = 14;

/// The caller's header has another version than this library.
pub const BAD_VERSION: u32 = 15;

/// The lane has as many jobs as its capacity.
pub const FULL: u32 = 16;

/// The lanes are closed.
pub const CLOSED: u32 = 17;

/// The lane has accepted as many jobs as a lane ever accepts.
pub const SPENT: u32 = 18;

/// The lane has no job.
pub const EMPTY: u32 = 19;

/// Another worker took the job.
pub const LOST: u32 = 20;

/// The lane has no job, and is closed.
pub const ENDED: u32 = 21;

/// There is no lane with this number.
pub const BAD_LANE: u32 = 22;

/// The sizes of the lanes are out of range.
pub const BAD_SIZES: u32 = 23;

/// The lanes have ended.
pub const FINISHED: u32 = 24;

/// The lanes have not ended yet.
pub const NOT_FINISHED: u32 = 25;

/// The lanes are open.
pub const NOT_CLOSED: u32 = 26;

/// A lane is not back in its place.
pub const LANE_OUT: u32 = 27;

/// A worker is not back in its place.
pub const WORKER_OUT: u32 = 28;

/// No lane, or no worker, is in its place.
pub const NONE_LEFT: u32 = 29;

/// A job is left.
pub const JOB_LEFT: u32 = 31;

/// Another call uses the lanes.
pub const STILL_SHARED: u32 = 32;

/// No thread is to be woken.
pub const NOBODY: u32 = 41;

/// Other calls were in the way, or there is more to do: the caller calls again.
pub const AGAIN: u32 = 42;

/// There is no job: the caller parks the thread until the worker has its token.
pub const PARK: u32 = 43;

/// The worker lies down.
pub const ASLEEP: u32 = 44;

/// The number that names no worker.
pub const NO_WORKER: u32 = 0xffff_ffff;
