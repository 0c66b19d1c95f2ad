//! The calls of lanes, over the erased sources.
//!
//! Their clauses ask nothing: a handle says whether it is open, and what it is of.

use crate::source::cubejobs_lanes as source;
use crate::source::kit::alloc::Global;
use crate::source::kit::opaque::Opaque;
use core::marker::PhantomData;

pub use crate::source::cubejobs_lanes::codes::{
    AGAIN, ASLEEP, BAD_LANE, BAD_SIZES, CLOSED, DONE, EMPTY, ENDED, FULL, LANE_OUT, LOST, NOBODY, NONE_LEFT,
    NO_WORKER, OUT_OF_MEMORY, PARK, SPENT, STILL_SHARED, VERSION, WORKER_OUT,
};
pub use crate::source::cubejobs_lanes::{
    CloseAnswer as Closed, FindAnswer as Found, JobAnswer as Job, LaneSizes as Sizes, LookAnswer as Looked,
    SubmitAnswer as Submitted,
};
pub use crate::source::lanes::{MAX_CAPACITY, MAX_LANES, MAX_WORKERS};

/// The role of the handle that owns lanes.
pub enum Owner {}

/// The role of a producer's handle.
pub enum Lane {}

/// The role of a worker's handle.
pub enum Worker {}

/// A handle of role `R`. It cannot be cloned or copied.
pub struct Handle<R> {
    inner: source::Handle,
    role: PhantomData<fn() -> R>,
}

impl<R> Handle<R> {
    pub const SHUT: Self =
        Handle { inner: source::Handle { tag: 0, ptr: Opaque::nothing(Global) }, role: PhantomData };
}

/// A code with the number of a lane or of a worker.
pub struct Numbered {
    pub code: u32,
    pub number: u32,
}

impl From<source::NumberAnswer> for Numbered {
    fn from(answer: source::NumberAnswer) -> Self {
        Numbered { code: answer.code, number: answer.number }
    }
}

impl From<source::WakeAnswer> for Numbered {
    fn from(answer: source::WakeAnswer) -> Self {
        Numbered { code: answer.code, number: answer.worker }
    }
}

impl From<source::FinishAnswer> for Numbered {
    fn from(answer: source::FinishAnswer) -> Self {
        Numbered { code: answer.code, number: answer.number }
    }
}

pub type Lanes = Handle<Owner>;
pub type OneLane = Handle<Lane>;
pub type OneWorker = Handle<Worker>;

/// Declares calls. Each has the name of the erased function that it makes, with the same handles
/// and numbers.
macro_rules! calls {
    ($($name:ident($($handle:ident: &mut $kind:ty),+; $($number:ident: $type:ty),*) -> $answer:ty;)*) => {
        $(
            pub fn $name($($handle: &mut $kind,)+ $($number: $type),*) -> $answer {
                source::$name($(&mut $handle.inner,)+ $($number),*).into()
            }
        )*
    };
}

calls! {
    cubejobs_lanes_open_version(owner: &mut Lanes; version: u32, sizes: Sizes) -> u32;
    cubejobs_lanes_lane(owner: &mut Lanes, lane: &mut OneLane;) -> u32;
    cubejobs_lanes_worker(owner: &mut Lanes, worker: &mut OneWorker;) -> u32;
    cubejobs_lanes_worker_number(worker: &mut OneWorker;) -> Numbered;
    cubejobs_lanes_submit(lane: &mut OneLane; payload: u64, dim: u32) -> Submitted;
    cubejobs_lanes_wake(lane: &mut OneLane;) -> Numbered;
    cubejobs_lanes_take(worker: &mut OneWorker; lane: u32) -> Job;
    cubejobs_lanes_take_any(worker: &mut OneWorker; from: u32) -> Job;
    cubejobs_lanes_look(worker: &mut OneWorker; lane: u32) -> Looked;
    cubejobs_lanes_find(worker: &mut OneWorker; from: u32) -> Found;
    cubejobs_lanes_awake(worker: &mut OneWorker;) -> u32;
    cubejobs_lanes_close(owner: &mut Lanes;) -> Closed;
    cubejobs_lanes_free_lane(lane: &mut OneLane;) -> u32;
    cubejobs_lanes_free_worker(worker: &mut OneWorker;) -> u32;
    cubejobs_lanes_finish(owner: &mut Lanes;) -> Numbered;
    cubejobs_lanes_rest(owner: &mut Lanes;) -> Job;
    cubejobs_lanes_free(owner: &mut Lanes;) -> u32;
}
