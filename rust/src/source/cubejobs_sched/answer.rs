// Made from crates/cubejobs_sched/src/answer.rt by checks/lib/erase.py. Change that file.
//! The answers that callers in C see.

/// What a call answers. A field that says nothing is 0.
#[repr(C)]
#[derive(Clone, Copy, Debug)]
pub struct SchedAnswer {
    /// `DONE`, or why the call was refused.
    pub code: u32,
    /// How many workers got a job. The next fields name them.
    pub count: u32,
    /// The worker that got a job first.
    pub first: u32,
    /// The next one.
    pub second: u32,
    /// The next one.
    pub third: u32,
    /// The last one.
    pub fourth: u32,
    /// 1 if more jobs may start now, else 0.
    pub more: u32,
    /// 1 if no job will start any more, else 0.
    pub over: u32,
    /// The ticket of the job.
    pub ticket: u64,
    /// The caller's number.
    pub payload: u64,
    /// The first processor of a job that starts.
    pub base: u64,
    /// How many processors it uses.
    pub processors: u32,
    /// The number of a worker, or of a slot.
    pub worker: u32,
}

/// How much a scheduler does. All is 0 unless the code is `DONE`.
#[repr(C)]
#[derive(Clone, Copy, Debug)]
pub struct CountsAnswer {
    /// `DONE`, or why the call was refused.
    pub code: u32,
    /// How many processors jobs hold.
    pub held: u32,
    /// How many processors are out of service.
    pub occupied: u32,
    /// 0.
    pub unused: u32,
    /// How many jobs wait.
    pub waiting: u64,
    /// How many jobs run.
    pub running: u64,
    /// How many processors the running jobs asked for.
    pub asked: u64,
}

/// What is known of when and where a job runs. A field that says nothing is 0.
#[repr(C)]
#[derive(Clone, Copy, Debug)]
pub struct SchedForecast {
    /// `DONE`, or why the call was refused.
    pub code: u32,
    /// 0 for nothing, 1 if it waits, 2 if a block is promised to it, 3 if it runs.
    pub state: u32,
    /// The first processor of its block.
    pub base: u64,
    /// The time by which the promised block is free, or the estimated end. `NEVER` if not known.
    pub time: u64,
    /// The dimension of its block.
    pub dim: u32,
    /// 0.
    pub unused: u32,
}
