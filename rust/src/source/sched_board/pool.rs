// Made from crates/sched_board/src/pool.rt by checks/lib/erase.py. Change that file.
//! A scheduler and its workers as one value.

use crate::source::sched_board::workers::{MAX_WORKERS, PoolWorker, first_waiting, put_state, state_at};
use crate::source::kit::fixed_vec::{FixedVec, Store};
use crate::source::sched_core::{CLASSES, MAX_BITMAP_DIM, MAX_GENERATION, MAX_SLOTS, Region, SchedJob, Scheduler};
use crate::source::kit::alloc::AllocError;

/// A scheduler with workers. Each job that runs has exactly one worker.
pub struct Pool {
    scheduler: Scheduler,
    workers: FixedVec<PoolWorker>,
    /// No worker below this number waits.
    first: u32,
}

impl Pool {
    /// Creates a scheduler as `Scheduler::new` does, and this number of workers, which are away.
    ///
    /// # Clauses of the proved source
    ///
    /// - requires dim: `dim ≤ MAX_BITMAP_DIM`
    /// - requires capacity: `capacity ≤ MAX_SLOTS`
    /// - requires workers: `workers ≤ MAX_WORKERS`
    /// - ensures slots: `IfOk result (λ made. slots_of made.core ≡ capacity)`
    /// - ensures shows: `IfOk result (λ made. ShowsCore (initial dim patience) made.core)`
    /// - ensures workers: `IfOk result (λ made. workers_of made ≡ workers)`
    /// - ensures away: `IfOk result (λ made. (u : ℕ) → worker_in made u ≡ Away)`
    /// - ensures spends: `OnOk result (Spends (pool_words dim capacity workers) store.old store.new)`
    /// - ensures enough: `HasWords (pool_words dim capacity workers) store.old → IsOk result`
    pub fn new(
        store: &mut Store,
        dim: u32,
        capacity: usize,
        patience: u32,
        workers: u32,
    ) -> Result<Self, AllocError> {
        let scheduler = Scheduler::new(store, dim, capacity, patience)?;
        let count = workers as usize;
        let workers = store.filled(PoolWorker::Away, count, count)?;
        Ok(Pool {
            scheduler,
            workers,
            first: 0,
        })
    }

    /// Returns the scheduler, to read it.
    ///
    /// # Clauses of the proved source
    ///
    /// - ensures: `result.now ≡ self.now.core`
    pub fn scheduler(&self) -> &Scheduler {
        &self.scheduler
    }

    /// Returns how many workers there are.
    ///
    /// # Clauses of the proved source
    ///
    /// - ensures count: `result ≡ workers_of self.now`
    /// - ensures limit: `result ≤ MAX_WORKERS`
    pub fn workers(&self) -> u32 {
        self.workers.len() as u32
    }

    /// Returns what a worker does.
    ///
    /// # Clauses of the proved source
    ///
    /// - requires: `number < workers_of self.now`
    /// - ensures: `result ≡ worker_in self.now number`
    pub fn worker(&self, number: u32) -> PoolWorker {
        state_at(&self.workers, number)
    }

    /// Says that each job that a worker has runs, and that each job that runs has exactly one
    /// worker.
    ///
    /// # Clauses of the proved source
    ///
    /// - ensures: `IsStaffed self.now.core self.now.workers`
    pub fn is_staffed(&self) {
        let _workers = &self.workers;
    }

    /// Adds a waiting job, as `Scheduler::submit` does, and returns its slot.
    ///
    /// # Clauses of the proved source
    ///
    /// - requires sound: `IsSound (dim_of self.old.core) job`
    /// - requires class: `job.class < CLASSES`
    /// - requires next: `submitted_of self.old.core < LAST`
    /// - ensures workers: `HasSameWorkers self.old self.new`
    /// - ensures slots: `slots_of self.new.core ≡ slots_of self.old.core`
    /// - ensures unchanged: `IfNone result (HasSameCore self.old self.new)`
    /// - ensures full: `IfNone result ((slot : ℕ) → slot < slots_of self.old.core → IsTaken self.old.core slot ⊎ IsSpent self.old.core slot)`
    /// - ensures inside: `IfSome result (λ slot. slot < slots_of self.new.core)`
    /// - ensures free: `IfSome result (λ slot. IsTaken self.old.core slot → ⊥)`
    /// - ensures unspent: `IfSome result (λ slot. job_generation self.old.core slot < MAX_GENERATION)`
    /// - ensures generation: `IfSome result (λ slot. job_generation self.new.core slot ≡ job_generation self.old.core slot + 1)`
    /// - ensures generations: `IfSome result (λ slot. (u : ℕ) → u ≢ slot → job_generation self.new.core u ≡ job_generation self.old.core u)`
    /// - ensures place: `IfSome result (λ slot. job_place self.new.core slot ≡ Queued (record { job = job; passed = 0 }))`
    /// - ensures arrival: `IfSome result (λ slot. job_arrival self.new.core slot ≡ submitted_of self.old.core)`
    /// - ensures submitted: `IfSome result (λ slot. submitted_of self.new.core ≡ submitted_of self.old.core + 1)`
    /// - ensures others: `IfSome result (KeepsOthers self.old.core self.new.core)`
    /// - ensures shows: `(w : Sched) → ShowsCore w self.old.core → IfSome result (λ slot. ShowsCore (submit job w) self.new.core)`
    pub fn submit(&mut self, job: SchedJob) -> Option<u32> {
        self.scheduler.submit(job)
    }

    /// Removes a waiting job. A block that was reserved for it is so no more.
    ///
    /// # Clauses of the proved source
    ///
    /// - requires inside: `slot < slots_of self.old.core`
    /// - requires job: `(wait : WaitData) × (job_place self.old.core slot ≡ Queued wait)`
    /// - ensures workers: `HasSameWorkers self.old self.new`
    /// - ensures slots: `slots_of self.new.core ≡ slots_of self.old.core`
    /// - ensures place: `job_place self.new.core slot ≡ Absent`
    /// - ensures generations: `KeepsGenerations self.old.core self.new.core`
    /// - ensures others: `KeepsOthers self.old.core self.new.core slot`
    /// - ensures shows: `(w : Sched) → ShowsCore w self.old.core → ShowsCore (cancel (job_arrival self.old.core slot) w) self.new.core`
    pub fn cancel(&mut self, slot: u32) {
        self.scheduler.cancel(slot);
    }

    /// Takes a block out of service, as `Scheduler::occupy` does.
    ///
    /// # Clauses of the proved source
    ///
    /// - requires block: `IsAligned (dim_of self.old.core) region`
    /// - ensures workers: `HasSameWorkers self.old self.new`
    /// - ensures vacant: `(w : Sched) → ShowsCore w self.old.core → IsTrue result ↔ IsVacant w region`
    /// - ensures unchanged: `IsFalse result → HasSameCore self.old self.new`
    /// - ensures jobs: `HasSameJobs self.old.core self.new.core`
    /// - ensures shows: `(w : Sched) → ShowsCore w self.old.core → IsVacant w region → ShowsCore (occupy region w) self.new.core`
    pub fn occupy(&mut self, region: Region) -> bool {
        self.scheduler.occupy(region)
    }

    /// Puts a block back into service, as `Scheduler::vacate` does.
    ///
    /// # Clauses of the proved source
    ///
    /// - ensures workers: `HasSameWorkers self.old self.new`
    /// - ensures out: `(w : Sched) → ShowsCore w self.old.core → IsTrue result ↔ (w.occupied region.base ≡ Some region)`
    /// - ensures unchanged: `IsFalse result → HasSameCore self.old self.new`
    /// - ensures jobs: `HasSameJobs self.old.core self.new.core`
    /// - ensures shows: `(w : Sched) → ShowsCore w self.old.core → w.occupied region.base ≡ Some region → ShowsCore (vacate region w) self.new.core`
    pub fn vacate(&mut self, region: Region) -> bool {
        self.scheduler.vacate(region)
    }

    /// Lets a worker wait that is away.
    ///
    /// # Clauses of the proved source
    ///
    /// - requires inside: `worker < workers_of self.old`
    /// - requires away: `worker_in self.old worker ≡ Away`
    /// - ensures core: `HasSameCore self.old self.new`
    /// - ensures count: `workers_of self.new ≡ workers_of self.old`
    /// - ensures waits: `worker_in self.new worker ≡ Waiting`
    /// - ensures others: `KeepsWorkers self.old self.new worker`
    pub fn ask(&mut self, worker: u32) {
        put_state(&mut self.workers, worker, PoolWorker::Waiting);
        self.first = self.first.min(worker);
    }

    /// Lets a worker wait no longer.
    ///
    /// # Clauses of the proved source
    ///
    /// - requires inside: `worker < workers_of self.old`
    /// - requires waits: `worker_in self.old worker ≡ Waiting`
    /// - ensures core: `HasSameCore self.old self.new`
    /// - ensures count: `workers_of self.new ≡ workers_of self.old`
    /// - ensures away: `worker_in self.new worker ≡ Away`
    /// - ensures others: `KeepsWorkers self.old self.new worker`
    pub fn leave(&mut self, worker: u32) {
        put_state(&mut self.workers, worker, PoolWorker::Away);
    }

    /// Removes the job that a worker has. Its block is vacant then, and the worker is away.
    ///
    /// # Clauses of the proved source
    ///
    /// - requires inside: `worker < workers_of self.old`
    /// - requires busy: `(slot : ℕ) × (worker_in self.old worker ≡ Busy slot)`
    /// - ensures count: `workers_of self.new ≡ workers_of self.old`
    /// - ensures away: `worker_in self.new worker ≡ Away`
    /// - ensures others: `KeepsWorkers self.old self.new worker`
    /// - ensures slots: `slots_of self.new.core ≡ slots_of self.old.core`
    /// - ensures generations: `KeepsGenerations self.old.core self.new.core`
    /// - ensures place: `(slot : ℕ) → worker_in self.old worker ≡ Busy slot → job_place self.new.core slot ≡ Absent`
    /// - ensures other_jobs: `(slot : ℕ) → worker_in self.old worker ≡ Busy slot → KeepsOthers self.old.core self.new.core slot`
    /// - ensures shows: `(slot : ℕ) (w : Sched) → worker_in self.old worker ≡ Busy slot → ShowsCore w self.old.core → ShowsCore (finish (job_arrival self.old.core slot) w) self.new.core`
    pub fn finish(&mut self, worker: u32) {
        let PoolWorker::Busy(slot) = state_at(&self.workers, worker) else {
            return;
        };
        self.scheduler.finish(slot);
        put_state(&mut self.workers, worker, PoolWorker::Away);
    }

    /// Starts the job that comes next at this time, and gives it to the first worker that waits.
    /// Returns this worker. Returns `None` if no worker waits, or if no job may start; then a block
    /// may have been reserved.
    ///
    /// # Clauses of the proved source
    ///
    /// - ensures count: `workers_of self.new ≡ workers_of self.old`
    /// - ensures slots: `slots_of self.new.core ≡ slots_of self.old.core`
    /// - ensures generations: `KeepsGenerations self.old.core self.new.core`
    /// - ensures keeps: `KeepsSlots self.old.core self.new.core`
    /// - ensures first: `IfSome result (IsFirstIdle self.old)`
    /// - ensures others: `IfSome result (KeepsWorkers self.old self.new)`
    /// - ensures starts: `(w : Sched) → ShowsCore w self.old.core → IfSome result (λ u. (slot : ℕ) × ((v : Sched) × ((worker_in self.new u ≡ Busy slot) × Decides (at now w) (answer_of self.new.core (Some slot)) v × ShowsCore v self.new.core)))`
    /// - ensures same: `IfNone result (HasSameWorkers self.old self.new)`
    /// - ensures idle: `HasNoneIdle self.old → HasSameCore self.old self.new`
    /// - ensures none: `(w : Sched) → ShowsCore w self.old.core → IfNone result ( (HasNoneIdle self.old × HasSameCore self.old self.new) ⊎ ((v : Sched) × (Decides (at now w) None v × ShowsCore v self.new.core)))`
    pub fn assign(&mut self, now: u64) -> Option<u32> {
        let Some(worker) = first_waiting(&self.workers, self.first) else {
            return None;
        };
        self.scheduler.shows_a_state();
        let Some(slot) = self.scheduler.next(now) else {
            return None;
        };
        put_state(&mut self.workers, worker, PoolWorker::Busy(slot));
        self.first = worker;
        Some(worker)
    }
}
