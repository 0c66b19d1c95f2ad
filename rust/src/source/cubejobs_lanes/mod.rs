// Made from crates/cubejobs_lanes/src/lib.rt by checks/lib/erase.py. Change that file.
//! Job lanes for callers in C and C++, as a static library.

pub(crate) mod answers;
pub(crate) mod closing;
pub(crate) mod codes;
pub(crate) mod common;
pub(crate) mod dealing;
pub(crate) mod end_exports;
pub(crate) mod ending;
pub(crate) mod find_answer;
pub(crate) mod handle;
pub(crate) mod handles;
pub(crate) mod job_exports;
pub(crate) mod kept;
pub(crate) mod kinds;
pub(crate) mod left;
pub(crate) mod left_exports;
pub(crate) mod name;
pub(crate) mod opaque_ptr;
pub(crate) mod opening;
pub(crate) mod owner;
pub(crate) mod owner_exports;
pub(crate) mod places;
pub(crate) mod returning;
pub(crate) mod returns;
pub(crate) mod seeking;
pub(crate) mod sides;
pub(crate) mod sizes;
pub(crate) mod sleep_exports;
pub(crate) mod sleeper_side;
pub(crate) mod stage;
pub(crate) mod state;
pub(crate) mod tries;
pub(crate) mod version;
pub(crate) mod waking;

pub use answers::{CloseAnswer, FinishAnswer, JobAnswer, LookAnswer, SubmitAnswer};
pub use codes::{DONE, NO_WORKER, OPEN, VERSION};
pub use end_exports::{
    cubejobs_lanes_close, cubejobs_lanes_finish, cubejobs_lanes_free_lane,
    cubejobs_lanes_free_worker,
};
pub use find_answer::{FindAnswer, NumberAnswer, WakeAnswer};
pub use handle::Handle;
pub use job_exports::{
    cubejobs_lanes_look, cubejobs_lanes_submit, cubejobs_lanes_take, cubejobs_lanes_take_any,
};
pub use left_exports::{cubejobs_lanes_free, cubejobs_lanes_rest};
pub use owner_exports::{cubejobs_lanes_lane, cubejobs_lanes_open_version, cubejobs_lanes_worker};
pub use sizes::LaneSizes;
pub use sleep_exports::{
    cubejobs_lanes_awake, cubejobs_lanes_find, cubejobs_lanes_wake, cubejobs_lanes_worker_number,
};
pub use version::cubejobs_lanes_version_number;
