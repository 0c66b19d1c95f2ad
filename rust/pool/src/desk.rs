//! The desk of a worker: its handles in the lanes, and where it looks for jobs. One thread has it
//! at a time.

use crate::job::Job;
use crate::overflow::LEAST_PRUNED;
use crate::shared::Shared;
use cubejobs::lanes::{self, Finding, Found, Lane, SubmitError, TakeError, Worker};

/// How many jobs in a row come from one lane, if it has them.
const MOST_IN_A_ROW: u32 = 64;

/// How many jobs go to the overflow after the own lane was full, before it is tried again. A try
/// would read what other workers write.
const SKIPPED: u32 = 32;

/// How often a worker looks for a job after its last one, before it lies down.
const LOOKS: u32 = 32;

/// The most lanes that it looks at meanwhile. So a pool of many lanes has fewer looks.
const LOOKED_LANES: u32 = 4096;

pub(crate) struct Desk {
    pub index: usize,
    /// The worker, unless it was left in its bed.
    worker: Option<Worker<u64>>,
    /// Whether the worker may lie down.
    pub may_lie: bool,
    lane: Lane<u64>,
    /// The lane of the next job, and how many came from it in a row.
    from: u32,
    in_a_row: u32,
    /// How often the worker still looks for a job before it lies down.
    pub looks: u32,
    /// Whether a one-worker job goes first, since the last job was a gang.
    pub is_turn_of_one: bool,
    /// How many jobs were begun before they were taken from a lane. They are perhaps in the own
    /// one.
    begun_early: usize,
    /// How many of them the overflow does not know of. All workers write to its count.
    uncounted: usize,
    /// How many of the next jobs go to the overflow, if it has some.
    skips: u32,
    /// How many jobs were moved to the own lane, and not taken since.
    moved: u32,
}

/// What the thread of a worker can do.
pub(crate) enum Next {
    Job(Job),
    Park,
    End,
}

impl Desk {
    /// Makes the desk of a worker, whose lane has this number.
    pub fn new(worker: Worker<u64>, lane: Lane<u64>, from: u32) -> Self {
        Desk {
            index: worker.number() as usize,
            worker: Some(worker),
            may_lie: false,
            lane,
            from,
            in_a_row: 0,
            looks: 0,
            is_turn_of_one: false,
            begun_early: 0,
            uncounted: 0,
            skips: 0,
            moved: 0,
        }
    }

    fn worker(&mut self, pool: &Shared) -> &mut Worker<u64> {
        self.worker.get_or_insert_with(|| pool.beds.get_back(self.index))
    }

    /// Says that the worker begins a job.
    pub fn begins(&mut self, pool: &Shared) {
        self.is_turn_of_one = false;
        self.looks = LOOKS.min(LOOKED_LANES / pool.lane_count);
    }

    /// Says that a job begins before it was taken from a lane.
    pub fn begins_early(&mut self, pool: &Shared) {
        self.begun_early += 1;
        self.uncounted += 1;
        if self.uncounted == LEAST_PRUNED {
            pool.overflow.count_early(LEAST_PRUNED);
            self.uncounted = 0;
        }
    }

    /// Finds a job, or has the worker lie down.
    pub fn find_or_lie_down(&mut self, pool: &Shared) -> Next {
        loop {
            if let Some(job) = self.take_listed(pool) {
                return Next::Job(job);
            }
            let from = self.from;
            let Finding { found, woken } = self.worker(pool).find(from);
            pool.rouse(woken);
            self.may_lie = matches!(found, Found::Park | Found::Again);
            match found {
                Found::Job(job) => {
                    if let Some(job) = self.taken(pool, job) {
                        return Next::Job(job);
                    }
                }
                Found::Park => return Next::Park,
                Found::Ended => return pool.take_last().map_or(Next::End, Next::Job),
                Found::Again => {}
            }
        }
    }

    /// Takes a job, unless the worker lies down.
    pub fn take_awake(&mut self, pool: &Shared) -> Option<Job> {
        if let Some(job) = self.take_listed(pool) {
            return Some(job);
        }
        let from = self.from;
        let taken = self.worker(pool).take_any(from);
        self.may_lie = taken == Err(TakeError::Asleep);
        self.taken(pool, taken.ok()?)
    }

    /// Takes a job that has come back, or one of the overflow if that has its turn, unless the
    /// worker lies down.
    fn take_listed(&mut self, pool: &Shared) -> Option<Job> {
        if self.may_lie {
            return None;
        }
        if pool.returned.has_jobs() {
            let (job, woken) = pool.returned.take();
            pool.rouse(woken);
            if job.is_some() {
                return job;
            }
        }
        if self.moved != 0 {
            self.moved -= 1;
            let own = pool.lane_of_worker(self.index);
            if let Ok(job) = self.worker(pool).take(own) {
                return Some(Job::taken(job));
            }
            self.moved = 0;
        }
        if self.from != pool.overflow.number || !pool.overflow.has_jobs() {
            return None;
        }
        self.count_turn(pool, self.from);
        self.take_overflow(pool)
    }

    /// Takes the first job of the overflow, and moves some of the next ones to the own lane.
    fn take_overflow(&mut self, pool: &Shared) -> Option<Job> {
        let (lane, mut moved) = (&mut self.lane, 0);
        let accept = |job: Job| match lane.submit(job.into_word(), 0) {
            Ok(accepted) => {
                pool.rouse(accepted.woken);
                moved += 1;
                Ok(())
            }
            Err(refused) => Err(Job::refused(refused)),
        };
        let (job, woken) = pool.overflow.take_with(4 * pool.size(), accept);
        self.moved = moved;
        pool.rouse(woken);
        // These have their turn with this one.
        self.in_a_row += moved;
        if self.in_a_row >= MOST_IN_A_ROW {
            (self.from, self.in_a_row) = (pool.overflow.number + 1, 0);
        }
        job
    }

    /// Returns the job that was taken from a lane, or that of a token.
    fn taken(&mut self, pool: &Shared, job: lanes::Job<u64>) -> Option<Job> {
        if job.lane == pool.returned.number {
            pool.returned.took_token();
            let (job, woken) = pool.returned.take();
            pool.rouse(woken);
            return job;
        }
        self.count_turn(pool, job.lane);
        if job.lane == pool.overflow.number {
            pool.overflow.took_token();
            return self.take_overflow(pool);
        }
        pool.made_room(job.lane);
        Some(Job::taken(job))
    }

    /// Counts a job of this lane, and goes on to the next lane after some.
    fn count_turn(&mut self, pool: &Shared, lane: u32) {
        let in_a_row = if lane == self.from { self.in_a_row + 1 } else { 1 };
        let goes_on = in_a_row >= MOST_IN_A_ROW;
        self.from = (lane + u32::from(goes_on)) % pool.lane_count;
        self.in_a_row = if goes_on { 0 } else { in_a_row };
    }

    /// Gets the worker up, or leaves it in its bed if it lies down. Returns whether it did: not if
    /// the worker was woken, and has to search for a job.
    pub fn get_up(&mut self, pool: &Shared) -> bool {
        if !self.may_lie {
            return true;
        }
        let Some(worker) = self.worker.take() else { return true };
        self.worker = pool.beds.leave(self.index, worker);
        self.may_lie = self.worker.is_none();
        self.may_lie
    }

    pub fn is_awake(&mut self) -> bool {
        self.worker.as_mut().is_none_or(Worker::awake)
    }

    /// Returns whether the next job is to go to the overflow, since the own lane was full lately.
    pub fn skips_lane(&mut self, pool: &Shared) -> bool {
        let skips = self.skips != 0 && pool.overflow.has_jobs();
        self.skips = self.skips.saturating_sub(1);
        skips
    }

    /// Submits a job to the lane of this worker. Returns the worker that this has woken. If the
    /// lane is full, returns the job.
    pub fn submit(&mut self, pool: &Shared, job: Job) -> Result<Option<u32>, (SubmitError, Job)> {
        let refused = match self.lane.submit(job.into_word(), 0) {
            Ok(accepted) => return Ok(accepted.woken),
            Err(refused) => refused,
        };
        self.skips = SKIPPED;
        if refused.reason != SubmitError::Full || !self.clear(pool) {
            return Err((refused.reason, Job::refused(refused)));
        }
        match self.lane.submit(refused.payload, 0) {
            Ok(accepted) => Ok(accepted.woken),
            Err(refused) => Err((refused.reason, Job::refused(refused))),
        }
    }

    /// Drops the first jobs of the own lane that have begun. The one after them goes to the
    /// overflow. Returns whether there is room now.
    fn clear(&mut self, pool: &Shared) -> bool {
        if self.begun_early == 0 || self.may_lie {
            return false;
        }
        let (own, mut has_room) = (pool.lane_of_worker(self.index), false);
        while self.begun_early != 0 {
            let Ok(taken) = self.worker(pool).take(own) else { break };
            has_room = true;
            self.begun_early -= 1;
            let job = Job::taken(taken);
            if !job.has_begun() {
                pool.rouse(pool.overflow.push_back(job));
                break;
            }
        }
        has_room
    }
}
