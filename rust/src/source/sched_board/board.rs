// Made from crates/sched_board/src/board.rt by checks/lib/erase.py. Change that file.
//! What threads share: the scheduler with its workers, and whether jobs may come.

use crate::source::sched_board::pool::Pool;
use crate::source::sched_board::sizes::ThreadSizes;
use crate::source::sched_board::woken::{MOST_WOKEN, Woken};
use crate::source::sched_board::workers::{MAX_WORKERS, PoolWorker};
use crate::source::cube_shape::{MAX_BITMAP_DIM, Region};
use crate::source::kit::fixed_vec::Store;
use crate::source::sched_core::{CLASSES, MAX_SLOTS, NEVER, SchedJob, Scheduler};
use crate::source::kit::alloc::AllocError;

/// Whether jobs may come, and whether those that wait may start.
#[derive(Clone, Copy, Debug, PartialEq, Eq, Hash)]
pub enum BoardPhase {
    /// Jobs may come and start.
    Open,
    /// No job may come. Those that wait may start.
    Closing,
    /// No job may come or start.
    Stopped,
}

/// Why a job was not accepted.
#[derive(Clone, Copy, Debug, PartialEq, Eq, Hash)]
pub enum BoardRefusal {
    /// No job may come any more.
    Closed,
    /// There is no place for it.
    Full,
}

/// The scheduler, its workers, and whether jobs may come.
pub struct JobBoard {
    pub(crate) pool: Pool,
    pub(crate) phase: BoardPhase,
}

impl JobBoard {
    /// Creates a board of these sizes. No job may wait or run, and all workers are away.
    ///
    /// # Clauses of the proved source
    ///
    /// - requires dim: `sizes.dim ≤ MAX_BITMAP_DIM`
    /// - requires jobs: `sizes.jobs ≤ MAX_SLOTS`
    /// - requires workers: `sizes.workers ≤ MAX_WORKERS`
    /// - ensures fresh: `IfOk result (IsFresh sizes)`
    /// - ensures spends: `OnOk result (Spends (pool_words sizes.dim sizes.jobs sizes.workers) store.old store.new)`
    /// - ensures enough: `HasWords (pool_words sizes.dim sizes.jobs sizes.workers) store.old → IsOk result`
    pub fn new(store: &mut Store, sizes: ThreadSizes) -> Result<Self, AllocError> {
        let pool = Pool::new(store, sizes.dim, sizes.jobs, sizes.patience, sizes.workers)?;
        Ok(JobBoard {
            pool,
            phase: BoardPhase::Open,
        })
    }

    /// Returns the scheduler, to read it.
    ///
    /// # Clauses of the proved source
    ///
    /// - ensures: `result.now ≡ self.now.pool.core`
    pub fn scheduler(&self) -> &Scheduler {
        self.pool.scheduler()
    }

    /// Returns what a worker does.
    ///
    /// # Clauses of the proved source
    ///
    /// - requires: `number < workers_of self.now.pool`
    /// - ensures: `result ≡ worker_in self.now.pool number`
    pub fn worker(&self, number: u32) -> PoolWorker {
        self.pool.worker(number)
    }

    /// Returns whether jobs may come, and whether those that wait may start.
    ///
    /// # Clauses of the proved source
    ///
    /// - ensures: `result ≡ self.now.phase`
    pub fn phase(&self) -> BoardPhase {
        self.phase
    }

    /// Adds a waiting job, and returns its slot.
    ///
    /// # Clauses of the proved source
    ///
    /// - requires sound: `IsSound (dim_of self.old.pool.core) job`
    /// - requires class: `job.class < CLASSES`
    /// - ensures leads: `IfOk result (λ slot. Leads self.old (submits job ∷ []) self.new)`
    /// - ensures inside: `IfOk result (λ slot. slot < slots_of self.new.pool.core)`
    /// - ensures place: `IfOk result (λ slot. job_place self.new.pool.core slot ≡ Queued (record { job = job; passed = 0 }))`
    /// - ensures arrival: `IfOk result (λ slot. job_arrival self.new.pool.core slot ≡ submitted_of self.old.pool.core)`
    /// - ensures workers: `HasSameWorkers self.old.pool self.new.pool`
    /// - ensures phase: `KeepsPhase self.old self.new`
    /// - ensures unchanged: `IfErr result (λ why. IsUnchanged self.old self.new)`
    /// - ensures why: `IfErr result (λ why. HasReason self.old why)`
    /// - ensures open: `IfOk result (λ slot. IsClosed self.old → ⊥)`
    pub fn submit(&mut self, job: SchedJob) -> Result<u32, BoardRefusal> {
        if self.phase != BoardPhase::Open {
            return Err(BoardRefusal::Closed);
        }
        if self.pool.scheduler().submitted() == NEVER {
            return Err(BoardRefusal::Full);
        }
        self.pool.is_staffed();
        self.pool.submit(job).ok_or(BoardRefusal::Full)
    }

    /// Removes a waiting job.
    ///
    /// # Clauses of the proved source
    ///
    /// - requires inside: `slot < slots_of self.old.pool.core`
    /// - requires job: `(wait : WaitData) × (job_place self.old.pool.core slot ≡ Queued wait)`
    /// - ensures leads: `Leads self.old (cancels (job_arrival self.old.pool.core slot) ∷ []) self.new`
    /// - ensures place: `job_place self.new.pool.core slot ≡ Absent`
    /// - ensures others: `KeepsOthers self.old.pool.core self.new.pool.core slot`
    /// - ensures slots: `slots_of self.new.pool.core ≡ slots_of self.old.pool.core`
    /// - ensures generations: `KeepsGenerations self.old.pool.core self.new.pool.core`
    /// - ensures workers: `HasSameWorkers self.old.pool self.new.pool`
    /// - ensures phase: `KeepsPhase self.old self.new`
    pub fn cancel(&mut self, slot: u32) {
        self.pool.is_staffed();
        self.pool.cancel(slot);
    }

    /// Takes a block out of service. Returns false only if a part of it is held or out of service.
    ///
    /// # Clauses of the proved source
    ///
    /// - requires block: `IsAligned (dim_of self.old.pool.core) region`
    /// - ensures vacant: `(w : Sched) → ShowsCore w self.old.pool.core → IsTrue result ↔ IsVacant w region`
    /// - ensures leads: `IsTrue result → Leads self.old (occupies region ∷ []) self.new`
    /// - ensures refused: `IsFalse result → IsInUse region self.old.pool.core`
    /// - ensures unchanged: `IsFalse result → IsUnchanged self.old self.new`
    /// - ensures workers: `HasSameWorkers self.old.pool self.new.pool`
    /// - ensures phase: `KeepsPhase self.old self.new`
    pub fn occupy(&mut self, region: Region) -> bool {
        self.pool.occupy(region)
    }

    /// Puts a block back into service. Returns false only if it is not out of service as one block.
    ///
    /// # Clauses of the proved source
    ///
    /// - ensures out: `(w : Sched) → ShowsCore w self.old.pool.core → IsTrue result ↔ (w.occupied region.base ≡ Some region)`
    /// - ensures leads: `IsTrue result → Leads self.old (vacates region ∷ []) self.new`
    /// - ensures refused: `IsFalse result → IsNotOut region self.old.pool.core`
    /// - ensures unchanged: `IsFalse result → IsUnchanged self.old self.new`
    /// - ensures workers: `HasSameWorkers self.old.pool self.new.pool`
    /// - ensures phase: `KeepsPhase self.old self.new`
    pub fn vacate(&mut self, region: Region) -> bool {
        self.pool.vacate(region)
    }

    /// Lets a worker wait that is away.
    ///
    /// # Clauses of the proved source
    ///
    /// - requires inside: `worker < workers_of self.old.pool`
    /// - requires away: `worker_in self.old.pool worker ≡ Away`
    /// - ensures leads: `Leads self.old (asks worker ∷ []) self.new`
    /// - ensures waits: `worker_in self.new.pool worker ≡ Waiting`
    /// - ensures count: `workers_of self.new.pool ≡ workers_of self.old.pool`
    /// - ensures others: `KeepsWorkers self.old.pool self.new.pool worker`
    /// - ensures phase: `KeepsPhase self.old self.new`
    pub fn ask(&mut self, worker: u32) {
        self.pool.ask(worker);
    }

    /// Lets a worker wait no longer.
    ///
    /// # Clauses of the proved source
    ///
    /// - requires inside: `worker < workers_of self.old.pool`
    /// - requires waits: `worker_in self.old.pool worker ≡ Waiting`
    /// - ensures leads: `Leads self.old (leaves worker ∷ []) self.new`
    /// - ensures away: `worker_in self.new.pool worker ≡ Away`
    /// - ensures count: `workers_of self.new.pool ≡ workers_of self.old.pool`
    /// - ensures others: `KeepsWorkers self.old.pool self.new.pool worker`
    /// - ensures phase: `KeepsPhase self.old self.new`
    pub fn leave(&mut self, worker: u32) {
        self.pool.leave(worker);
    }

    /// Ends the job of a worker, which is away then.
    ///
    /// # Clauses of the proved source
    ///
    /// - requires inside: `worker < workers_of self.old.pool`
    /// - requires busy: `(slot : ℕ) × (worker_in self.old.pool worker ≡ Busy slot)`
    /// - ensures leads: `Leads self.old (ends worker ∷ []) self.new`
    /// - ensures away: `worker_in self.new.pool worker ≡ Away`
    /// - ensures count: `workers_of self.new.pool ≡ workers_of self.old.pool`
    /// - ensures others: `KeepsWorkers self.old.pool self.new.pool worker`
    /// - ensures phase: `KeepsPhase self.old self.new`
    pub fn finish(&mut self, worker: u32) {
        self.pool.is_staffed();
        self.pool.finish(worker);
    }

    /// Lets no job come any more. Those that wait start, or do not start.
    ///
    /// # Clauses of the proved source
    ///
    /// - requires open: `IsClosed self.old → ⊥`
    /// - ensures leads: `Leads self.old (closes ∷ []) self.new`
    /// - ensures closed: `IsClosed self.new`
    /// - ensures phase: `self.new.phase ≡ phase_after do_start`
    /// - ensures pool: `self.new.pool ≡ self.old.pool`
    pub fn close(&mut self, do_start: bool) {
        self.phase = if do_start {
            BoardPhase::Closing
        } else {
            BoardPhase::Stopped
        };
    }

    /// Starts jobs while workers wait for them, at most `MOST_WOKEN`. Returns the workers that got
    /// one, and whether more may start.
    ///
    /// # Clauses of the proved source
    ///
    /// - ensures decides: `DecidesAt now self.old self.new`
    /// - ensures stopped: `self.old.phase ≡ Stopped → self.new ≡ self.old`
    /// - ensures serves: `Serves None self.old self.new`
    /// - ensures woken: `NamesWoken self.old self.new result.0`
    /// - ensures limit: `result.0.count ≤ MOST_WOKEN`
    /// - ensures more: `IsTrue result.1 → result.0.count ≡ MOST_WOKEN`
    /// - ensures rest: `IsFalse result.1 → IsAtRest self.new`
    /// - ensures count: `workers_of self.new.pool ≡ workers_of self.old.pool`
    /// - ensures slots: `slots_of self.new.pool.core ≡ slots_of self.old.pool.core`
    /// - ensures generations: `KeepsGenerations self.old.pool.core self.new.pool.core`
    /// - ensures keeps: `KeepsSlots self.old.pool.core self.new.pool.core`
    /// - ensures phase: `KeepsPhase self.old self.new`
    pub fn decide(&mut self, now: u64) -> (Woken, bool) {
        let mut woken = Woken::NONE;
        if self.phase == BoardPhase::Stopped {
            return (woken, false);
        }
        for _turn in 0..MOST_WOKEN {
            let Some(worker) = self.start_one(now) else {
                return (woken, false);
            };
            woken = woken.add(worker);
        }
        (woken, true)
    }

    /// Starts the job that comes next, if a worker waits for it. Returns this worker.
    fn start_one(&mut self, now: u64) -> Option<u32> {
        self.pool.scheduler().shows_a_state();
        self.pool.is_staffed();
        self.pool.assign(now)
    }
}
