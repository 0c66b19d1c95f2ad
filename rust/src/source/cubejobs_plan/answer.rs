// Made from crates/cubejobs_plan/src/answer.rt by checks/lib/erase.py. Change that file.
//! The answers that callers in C see.

/// A job, as a call about it answers. All is 0 unless the code is `DONE`.
#[repr(C)]
#[derive(Clone, Copy, Debug)]
pub struct PlanJob {
    /// `DONE`, or why the call was refused.
    pub code: u32,
    /// Where the job is: `WAITS`, `RESERVED` or `RUNS`.
    pub state: u32,
    /// The ticket of the job.
    pub ticket: u64,
    /// The caller's number.
    pub payload: u64,
    /// The first processor of a running job, or of the reserved block.
    pub base: u64,
    /// The estimated end of a running job, or the promise of the reserved block, or `NEVER`.
    pub time: u64,
    /// How many waiting jobs come before it.
    pub before: u64,
    /// How many jobs were submitted before it.
    pub arrival: u64,
    /// How many processors it asked for.
    pub processors: u32,
    /// The dimension of its block.
    pub dim: u32,
    /// Its class.
    pub job_class: u32,
}

/// What a planner has. All is 0 unless the code is `DONE`.
#[repr(C)]
#[derive(Clone, Copy, Debug)]
pub struct PlanCounts {
    /// `DONE`, or why the call was refused.
    pub code: u32,
    /// How many jobs wait.
    pub waiting: u32,
    /// How many jobs run.
    pub running: u32,
    /// How many processors no other job can have since a job runs.
    pub held: u32,
    /// How many processors the running jobs asked for.
    pub asked: u32,
    /// How many processors are out of service.
    pub occupied: u32,
    /// The most processors that one job could get now, if no other waited.
    pub largest: u32,
}
