// Made from crates/sched_core/src/kept.rt by checks/lib/erase.py. Change that file.
//! The scheduler for callers that keep it.

use crate::source::sched_core::assigned::{Assigned, Forecast};
use crate::source::sched_core::scheduler::Core;
use crate::source::cube_shape::{MAX_BITMAP_DIM, Region};
use crate::source::kit::fixed_vec::Store;
use crate::source::sched_jobs::{CLASSES, MAX_GENERATION, MAX_SLOTS};
use crate::source::sched_law::{Place, SchedJob};
use crate::source::kit::alloc::AllocError;

/// A scheduler that shows a state of `sched_law` at each call. So no call requires that.
pub struct Scheduler {
    core: Core,
}

impl Scheduler {
    /// Creates a scheduler of a machine of dimension `dim`, for this many jobs, without a job, in
    /// memory of a store. If `patience` times the machine has passed the head, a block is reserved
    /// for it in any case.
    ///
    /// # Clauses of the proved source
    ///
    /// - requires dim: `dim ≤ MAX_BITMAP_DIM`
    /// - requires capacity: `capacity ≤ MAX_SLOTS`
    /// - ensures slots: `IfOk result (λ made. slots_of made ≡ capacity)`
    /// - ensures shows: `IfOk result (ShowsCore (initial dim patience))`
    /// - ensures spends: `OnOk result (Spends (core_words dim capacity) store.old store.new)`
    /// - ensures enough: `HasWords (core_words dim capacity) store.old → IsOk result`
    pub fn new(
        store: &mut Store,
        dim: u32,
        capacity: usize,
        patience: u32,
    ) -> Result<Self, AllocError> {
        let core = Core::new(store, dim, capacity, patience)?;
        Ok(Scheduler { core })
    }

    /// Returns the dimension of the machine.
    ///
    /// # Clauses of the proved source
    ///
    /// - ensures dim: `result ≡ dim_of self.now`
    /// - ensures shown: `(w : Sched) → ShowsCore w self.now → result ≡ w.dim`
    /// - ensures limit: `result ≤ MAX_BITMAP_DIM`
    pub fn dim(&self) -> u32 {
        self.core.dim()
    }

    /// Returns the time of the last decision.
    ///
    /// # Clauses of the proved source
    ///
    /// - ensures time: `result ≡ time_of self.now`
    /// - ensures shown: `(w : Sched) → ShowsCore w self.now → result ≡ w.now`
    pub fn now(&self) -> u64 {
        self.core.now()
    }

    /// Returns how many times the machine passes a job before a block without a known promise is
    /// reserved for it.
    ///
    /// # Clauses of the proved source
    ///
    /// - ensures: `(w : Sched) → ShowsCore w self.now → result ≡ w.patience`
    pub fn patience(&self) -> u32 {
        self.core.patience()
    }

    /// Returns how many jobs there may be that are not over.
    ///
    /// # Clauses of the proved source
    ///
    /// - ensures: `result ≡ slots_of self.now`
    pub fn capacity(&self) -> usize {
        self.core.capacity()
    }

    /// Returns how many jobs were submitted, which is the number of the next one.
    ///
    /// # Clauses of the proved source
    ///
    /// - ensures submitted: `result ≡ submitted_of self.now`
    /// - ensures shown: `(w : Sched) → ShowsCore w self.now → result ≡ w.next`
    pub fn submitted(&self) -> u64 {
        self.core.submitted()
    }

    /// Returns where the job of a slot is.
    ///
    /// # Clauses of the proved source
    ///
    /// - requires: `slot < slots_of self.now`
    /// - ensures: `result ≡ job_place self.now slot`
    pub fn place(&self, slot: u32) -> Place {
        self.core.place(slot)
    }

    /// Returns the number of a slot's job.
    ///
    /// # Clauses of the proved source
    ///
    /// - requires inside: `slot < slots_of self.now`
    /// - ensures: `result ≡ job_arrival self.now slot`
    pub fn arrival(&self, slot: u32) -> u64 {
        self.core.arrival(slot)
    }

    /// Returns a name for a slot's job, which no other job ever has. It is not 0.
    ///
    /// # Clauses of the proved source
    ///
    /// - requires inside: `slot < slots_of self.now`
    /// - ensures ticket: `result ≡ job_ticket self.now slot`
    /// - ensures some: `IsTaken self.now slot → 0 < result`
    pub fn ticket(&self, slot: u32) -> u64 {
        self.core.ticket(slot)
    }

    /// Returns the slot of the job with a ticket, if it is not over.
    ///
    /// # Clauses of the proved source
    ///
    /// - ensures found: `IfSome result (λ slot. slot < slots_of self.now × IsTaken self.now slot × (ticket ≡ job_ticket self.now slot))`
    /// - ensures none: `IfNone result ((slot : ℕ) → slot < slots_of self.now → IsTaken self.now slot → ticket ≡ job_ticket self.now slot → ⊥)`
    pub fn find(&self, ticket: u64) -> Option<u32> {
        self.core.find(ticket)
    }

    /// Returns the first slot from one on that has a job.
    ///
    /// # Clauses of the proved source
    ///
    /// - ensures found: `IfSome result (IsNextTaken self.now from)`
    /// - ensures none: `IfNone result (HasNoneTaken self.now from)`
    pub fn next_used(&self, from: u32) -> Option<u32> {
        self.core.next_used(from)
    }

    /// Returns how many jobs wait.
    ///
    /// # Clauses of the proved source
    ///
    /// - ensures: `(w : Sched) → ShowsCore w self.now → IsCount (DoesWait w) w.next result`
    pub fn waiting(&self) -> u64 {
        self.core.waiting()
    }

    /// Returns how many jobs run.
    ///
    /// # Clauses of the proved source
    ///
    /// - ensures: `(w : Sched) → ShowsCore w self.now → IsCount (DoesRun w) w.next result`
    pub fn running(&self) -> u64 {
        self.core.running()
    }

    /// Returns how many processors the running jobs use together. Their blocks may have more.
    ///
    /// # Clauses of the proved source
    ///
    /// - ensures: `(w : Sched) → ShowsCore w self.now → result ≡ asked w`
    pub fn asked(&self) -> u64 {
        self.core.asked()
    }

    /// Returns how many waiting jobs come before the waiting job of a slot. They are of a lower
    /// class, or of its class with a lesser number.
    ///
    /// # Clauses of the proved source
    ///
    /// - requires inside: `slot < slots_of self.now`
    /// - requires job: `(wait : WaitData) × (job_place self.now slot ≡ Waiting wait)`
    /// - ensures: `(w : Sched) (wait : WaitData) → ShowsCore w self.now → job_place self.now slot ≡ Waiting wait → IsCount (WaitsBefore w (job_arrival self.now slot) wait.job) w.next result`
    pub fn count_before(&self, slot: u32) -> u64 {
        self.core.count_before(slot)
    }

    /// Returns how many waiting jobs come before the waiting job of a slot. The reserved job comes
    /// before all others. The others come in order.
    ///
    /// # Clauses of the proved source
    ///
    /// - requires inside: `slot < slots_of self.now`
    /// - requires job: `(wait : WaitData) × (job_place self.now slot ≡ Waiting wait)`
    /// - ensures: `(w : Sched) (wait : WaitData) → ShowsCore w self.now → job_place self.now slot ≡ Waiting wait → IsCount (ComesBefore w (job_arrival self.now slot) wait.job) w.next result`
    pub fn before(&self, slot: u32) -> u64 {
        self.core.before(slot)
    }

    /// Returns the same for the job that was submitted last.
    ///
    /// # Clauses of the proved source
    ///
    /// - requires inside: `slot < slots_of self.now`
    /// - requires job: `(wait : WaitData) × (job_place self.now slot ≡ Waiting wait)`
    /// - requires last: `job_arrival self.now slot + 1 ≡ submitted_of self.now`
    /// - ensures: `(w : Sched) (wait : WaitData) → ShowsCore w self.now → job_place self.now slot ≡ Waiting wait → IsCount (ComesBefore w (job_arrival self.now slot) wait.job) w.next result`
    pub fn before_last(&self, slot: u32) -> u64 {
        self.core.before_last(slot)
    }

    /// Returns how many processors jobs hold.
    ///
    /// # Clauses of the proved source
    ///
    /// - ensures: `(w : Sched) → ShowsCore w self.now → IsCount (IsHeld (held w)) (2 ^ w.dim) result`
    pub fn held(&self) -> u32 {
        self.core.held()
    }

    /// Returns how many processors are out of service.
    ///
    /// # Clauses of the proved source
    ///
    /// - ensures: `(w : Sched) → ShowsCore w self.now → IsCount (IsHeld w.occupied) (2 ^ w.dim) result`
    pub fn occupied(&self) -> u32 {
        self.core.occupied()
    }

    /// Returns the largest dimension of a vacant block, or `None` if no processor is vacant.
    ///
    /// # Clauses of the proved source
    ///
    /// - ensures dim: `IfSome result (λ l. l ≤ dim_of self.now)`
    /// - ensures largest: `(w : Sched) → ShowsCore w self.now → IfSome result (λ l. (k : ℕ) → k ≤ w.dim → HasNone w.dim k (IsVacant w) ↔ (l < k))`
    /// - ensures none: `(w : Sched) → ShowsCore w self.now → IfNone result ((k : ℕ) → k ≤ w.dim → HasNone w.dim k (IsVacant w))`
    pub fn largest_vacant(&self) -> Option<u32> {
        self.core.largest_vacant()
    }

    /// Adds a waiting job, and returns its slot. Returns `None` only if each slot has a job or has
    /// had as many as it may have; then nothing changes.
    ///
    /// # Clauses of the proved source
    ///
    /// - requires sound: `IsSound (dim_of self.old) job`
    /// - requires class: `job.class < CLASSES`
    /// - requires next: `submitted_of self.old < LAST`
    /// - ensures slots: `slots_of self.new ≡ slots_of self.old`
    /// - ensures unchanged: `IfNone result (self.new ≡ self.old)`
    /// - ensures full: `IfNone result ((slot : ℕ) → slot < slots_of self.old → IsTaken self.old slot ⊎ IsSpent self.old slot)`
    /// - ensures inside: `IfSome result (λ slot. slot < slots_of self.new)`
    /// - ensures free: `IfSome result (λ slot. IsTaken self.old slot → ⊥)`
    /// - ensures unspent: `IfSome result (λ slot. job_generation self.old slot < MAX_GENERATION)`
    /// - ensures generation: `IfSome result (λ slot. job_generation self.new slot ≡ job_generation self.old slot + 1)`
    /// - ensures generations: `IfSome result (λ slot. (u : ℕ) → u ≢ slot → job_generation self.new u ≡ job_generation self.old u)`
    /// - ensures place: `IfSome result (λ slot. job_place self.new slot ≡ Waiting (record { job = job; passed = 0 }))`
    /// - ensures arrival: `IfSome result (λ slot. job_arrival self.new slot ≡ submitted_of self.old)`
    /// - ensures submitted: `IfSome result (λ slot. submitted_of self.new ≡ submitted_of self.old + 1)`
    /// - ensures others: `IfSome result (KeepsOthers self.old self.new)`
    /// - ensures shows: `(w : Sched) → ShowsCore w self.old → IfSome result (λ slot. ShowsCore (submit job w) self.new)`
    pub fn submit(&mut self, job: SchedJob) -> Option<u32> {
        self.core.submit(job)
    }

    /// Adds a waiting job in a slot. Returns false only if the slot has a job or has had as many as
    /// it may have; then nothing changes.
    ///
    /// # Clauses of the proved source
    ///
    /// - requires inside: `slot < slots_of self.old`
    /// - requires sound: `IsSound (dim_of self.old) job`
    /// - requires class: `job.class < CLASSES`
    /// - requires next: `submitted_of self.old < LAST`
    /// - ensures slots: `slots_of self.new ≡ slots_of self.old`
    /// - ensures unchanged: `IsFalse result → self.new ≡ self.old`
    /// - ensures refused: `IsFalse result → IsTaken self.old slot ⊎ IsSpent self.old slot`
    /// - ensures free: `IsTrue result → IsTaken self.old slot → ⊥`
    /// - ensures unspent: `IsTrue result → job_generation self.old slot < MAX_GENERATION`
    /// - ensures generation: `IsTrue result → job_generation self.new slot ≡ job_generation self.old slot + 1`
    /// - ensures generations: `(u : ℕ) → u ≢ slot → job_generation self.new u ≡ job_generation self.old u`
    /// - ensures place: `IsTrue result → job_place self.new slot ≡ Waiting (record { job = job; passed = 0 })`
    /// - ensures arrival: `IsTrue result → job_arrival self.new slot ≡ submitted_of self.old`
    /// - ensures others: `KeepsOtherJobs self.old self.new slot`
    /// - ensures shows: `(w : Sched) → ShowsCore w self.old → IsTrue result → ShowsCore (submit job w) self.new`
    pub fn submit_into(&mut self, slot: u32, job: SchedJob) -> bool {
        self.core.submit_into(slot, job)
    }

    /// Removes a waiting job. A block that was reserved for it is so no more.
    ///
    /// # Clauses of the proved source
    ///
    /// - requires inside: `slot < slots_of self.old`
    /// - requires job: `(wait : WaitData) × (job_place self.old slot ≡ Waiting wait)`
    /// - ensures slots: `slots_of self.new ≡ slots_of self.old`
    /// - ensures place: `job_place self.new slot ≡ Absent`
    /// - ensures generations: `KeepsGenerations self.old self.new`
    /// - ensures others: `KeepsOthers self.old self.new slot`
    /// - ensures shows: `(w : Sched) → ShowsCore w self.old → ShowsCore (cancel (job_arrival self.old slot) w) self.new`
    pub fn cancel(&mut self, slot: u32) {
        self.core.cancel(slot);
    }

    /// Removes a running job, whose block is vacant then.
    ///
    /// # Clauses of the proved source
    ///
    /// - requires inside: `slot < slots_of self.old`
    /// - requires job: `(run : RunData) × (job_place self.old slot ≡ Running run)`
    /// - ensures slots: `slots_of self.new ≡ slots_of self.old`
    /// - ensures place: `job_place self.new slot ≡ Absent`
    /// - ensures generations: `KeepsGenerations self.old self.new`
    /// - ensures others: `KeepsOthers self.old self.new slot`
    /// - ensures shows: `(w : Sched) → ShowsCore w self.old → ShowsCore (finish (job_arrival self.old slot) w) self.new`
    pub fn finish(&mut self, slot: u32) {
        self.core.finish(slot);
    }

    /// Takes a block out of service. A reservation of a part of it ends. Returns false only if a
    /// part of the block is in use; then nothing changes.
    ///
    /// # Clauses of the proved source
    ///
    /// - requires block: `IsAligned (dim_of self.old) region`
    /// - ensures vacant: `(w : Sched) → ShowsCore w self.old → IsTrue result ↔ IsVacant w region`
    /// - ensures unchanged: `IsFalse result → self.new ≡ self.old`
    /// - ensures jobs: `HasSameJobs self.old self.new`
    /// - ensures shows: `(w : Sched) → ShowsCore w self.old → IsVacant w region → ShowsCore (occupy region w) self.new`
    pub fn occupy(&mut self, region: Region) -> bool {
        self.core.occupy(region)
    }

    /// Puts a block back into service. Returns false only if it is not out of service as one block;
    /// then nothing changes.
    ///
    /// # Clauses of the proved source
    ///
    /// - ensures out: `(w : Sched) → ShowsCore w self.old → IsTrue result ↔ (w.occupied region.base ≡ Some region)`
    /// - ensures unchanged: `IsFalse result → self.new ≡ self.old`
    /// - ensures jobs: `HasSameJobs self.old self.new`
    /// - ensures shows: `(w : Sched) → ShowsCore w self.old → w.occupied region.base ≡ Some region → ShowsCore (vacate region w) self.new`
    pub fn vacate(&mut self, region: Region) -> bool {
        self.core.vacate(region)
    }

    /// Starts the job that comes next at this time, and returns its slot. Returns `None` if no job
    /// may start; then a block may have been reserved. A state has only one decision, as
    /// `sched_law::decisions_are_one` says, so the clause `decides` fixes the job and the state.
    /// The laws of `sched_law` on promises hold if times never go back.
    ///
    /// # Clauses of the proved source
    ///
    /// - ensures slots: `slots_of self.new ≡ slots_of self.old`
    /// - ensures inside: `IfSome result (λ slot. slot < slots_of self.new)`
    /// - ensures generations: `KeepsGenerations self.old self.new`
    /// - ensures keeps: `KeepsSlots self.old self.new`
    /// - ensures runs: `IfSome result (λ slot. (run : RunData) × (job_place self.new slot ≡ Running run))`
    /// - ensures decides: `(w : Sched) → ShowsCore w self.old → (v : Sched) × Decides (at now w) (answer_of self.new result) v × ShowsCore v self.new`
    pub fn next(&mut self, now: u64) -> Option<u32> {
        self.core.next(now)
    }

    /// Returns the job that `next` would start at this time, and its block. It starts nothing, but
    /// a block may be reserved as `next` would reserve it.
    ///
    /// # Clauses of the proved source
    ///
    /// - ensures jobs: `HasSameJobs self.old self.new`
    /// - ensures inside: `IfSome result (λ it. it.slot < slots_of self.new)`
    /// - ensures announces: `(w : Sched) → ShowsCore w self.old → (v : Sched) × ((u : Sched) × (IsAnnounced (at now w) v u self.new result × ShowsCore v self.new))`
    pub fn peek(&mut self, now: u64) -> Option<Assigned> {
        self.core.peek(now)
    }

    /// Returns what is known of when and where the job of a slot runs.
    ///
    /// # Clauses of the proved source
    ///
    /// - requires inside: `slot < slots_of self.now`
    /// - ensures: `(w : Sched) → ShowsCore w self.now → IsForecast w (job_arrival self.now slot) (job_place self.now slot) result`
    pub fn forecast(&self, slot: u32) -> Forecast {
        self.core.forecast(slot)
    }

    /// Says that the scheduler shows a state.
    ///
    /// # Clauses of the proved source
    ///
    /// - ensures: `(w : Sched) × ShowsCore w self.now`
    pub fn shows_a_state(&self) {
        let _core = &self.core;
    }
}
