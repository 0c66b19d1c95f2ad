// Made from crates/sched_jobs/src/jobs.rt by checks/lib/erase.py. Change that file.
//! The jobs of a scheduler as a value.

use crate::source::sched_jobs::line_table::LineTable;
use crate::source::sched_jobs::lines::{CLASSES, DIMS};
use crate::source::sched_jobs::nodes::MAX_SLOTS;
use crate::source::sched_jobs::search::Wanted;
use crate::source::sched_jobs::slots::{
    MAX_GENERATION, Slot, count_known, generation_at, is_present, next_present, place_at,
    processors_of, put,
};
use crate::source::cube_shape::{MAX_BITMAP_DIM, Region};
use crate::source::kit::fixed_vec::{FixedVec, Store};
use crate::source::sched_law::{Place, SchedJob, SchedRun, SchedWait};
use crate::source::kit::alloc::AllocError;

/// The jobs of a scheduler for one thread.
///
/// Only `new` takes memory.
pub struct Jobs {
    next: u64,
    free: u32,
    /// How many jobs run.
    running: u64,
    /// How many processors the running jobs use.
    asked: u64,
    /// How many running jobs have a known end.
    timed: u64,
    slots: FixedVec<Slot>,
    lines: LineTable,
}

impl Jobs {
    /// Creates a table for this many jobs, without a job, in memory of a store.
    ///
    /// # Clauses of the proved source
    ///
    /// - requires: `capacity ≤ MAX_SLOTS`
    /// - ensures capacity: `IfOk result (λ made. capacity_of made ≡ capacity)`
    /// - ensures shows: `IfOk result (λ made. (n patience : ℕ) → ShowsJobs (initial n patience) made)`
    /// - ensures spends: `OnOk result (Spends (job_words capacity) store.old store.new)`
    /// - ensures enough: `HasWords (job_words capacity) store.old → IsOk result`
    pub fn new(store: &mut Store, capacity: usize) -> Result<Self, AllocError> {
        let slots = store.filled(Slot::UNUSED, capacity, 7 * capacity)?;
        let lines = LineTable::new(store, capacity)?;
        Ok(Jobs {
            next: 0,
            free: 0,
            running: 0,
            asked: 0,
            timed: 0,
            slots,
            lines,
        })
    }

    /// Returns how many jobs the table may have.
    ///
    /// # Clauses of the proved source
    ///
    /// - ensures: `result ≡ capacity_of self.now`
    pub fn capacity(&self) -> usize {
        self.slots.len()
    }

    /// Returns how many jobs were submitted, which is the number of the next one.
    ///
    /// # Clauses of the proved source
    ///
    /// - ensures: `result ≡ self.now.next`
    pub fn next(&self) -> u64 {
        self.next
    }

    /// Returns where the job of a slot is.
    ///
    /// # Clauses of the proved source
    ///
    /// - requires: `slot < capacity_of self.now`
    /// - ensures: `result ≡ place_of self.now slot`
    pub fn place(&self, slot: u32) -> Place {
        place_at(&self.slots, slot)
    }

    /// Returns the number of a slot's job.
    ///
    /// # Clauses of the proved source
    ///
    /// - requires slot: `slot < capacity_of self.now`
    /// - requires shows: `(w : Sched) × ShowsJobs w self.now`
    /// - ensures: `result ≡ arrival_of self.now slot`
    pub fn arrival(&self, slot: u32) -> u64 {
        self.lines.key(slot)
    }

    /// Returns a name for a slot's job, which no other job ever has. It is not 0.
    ///
    /// # Clauses of the proved source
    ///
    /// - requires slot: `slot < capacity_of self.now`
    /// - requires shows: `(w : Sched) × ShowsJobs w self.now`
    /// - ensures ticket: `result ≡ ticket_of self.now slot`
    /// - ensures some: `HasJob self.now slot → 0 < result`
    pub fn ticket(&self, slot: u32) -> u64 {
        generation_at(&self.slots, slot) * MAX_SLOTS as u64 + slot as u64
    }

    /// Returns the slot of the job with a ticket, if it is not over.
    ///
    /// # Clauses of the proved source
    ///
    /// - requires shows: `(w : Sched) × ShowsJobs w self.now`
    /// - ensures found: `IfSome result (λ slot. slot < capacity_of self.now × HasJob self.now slot × (ticket ≡ ticket_of self.now slot))`
    /// - ensures none: `IfNone result ((slot : ℕ) → slot < capacity_of self.now → HasJob self.now slot → ticket ≡ ticket_of self.now slot → ⊥)`
    pub fn find(&self, ticket: u64) -> Option<u32> {
        let slot = (ticket % MAX_SLOTS as u64) as u32;
        if slot as usize >= self.slots.len() {
            return None;
        }
        if generation_at(&self.slots, slot) != ticket / MAX_SLOTS as u64 {
            return None;
        }
        if !is_present(&self.slots, slot) {
            return None;
        }
        Some(slot)
    }

    /// Returns the first waiting job in order of those that need at most dimension `most`.
    #[inline(always)]
    ///
    /// # Clauses of the proved source
    ///
    /// - requires: `(w : Sched) × ShowsJobs w self.now`
    /// - ensures first: `(w : Sched) → ShowsJobs w self.now → IfSome result (IsFirstWaiting (Some most) None 0 w self.now)`
    /// - ensures none: `(w : Sched) → ShowsJobs w self.now → IfNone result (HasNoneWaiting (Some most) None 0 w)`
    pub fn first(&self, most: u32) -> Option<u32> {
        self.first_passing(Some(most), None, 0)
    }

    /// Returns the first waiting job in order that may pass the head. It needs at most dimension
    /// `any`, or at most `most` and has a known estimate of at most `limit`.
    #[inline(always)]
    ///
    /// # Clauses of the proved source
    ///
    /// - requires: `(w : Sched) × ShowsJobs w self.now`
    /// - ensures first: `(w : Sched) → ShowsJobs w self.now → IfSome result (IsFirstWaiting any most limit w self.now)`
    /// - ensures none: `(w : Sched) → ShowsJobs w self.now → IfNone result (HasNoneWaiting any most limit w)`
    pub fn first_passing(&self, any: Option<u32>, most: Option<u32>, limit: u64) -> Option<u32> {
        let wanted = Wanted::new(any, most, limit);
        self.lines.first(&wanted)
    }

    /// Returns how many jobs wait.
    ///
    /// # Clauses of the proved source
    ///
    /// - requires: `(w : Sched) × ShowsJobs w self.now`
    /// - ensures: `(w : Sched) → ShowsJobs w self.now → IsCount (DoesWait w) w.next result`
    pub fn waiting(&self) -> u64 {
        self.lines.count_classes(CLASSES as usize)
    }

    /// Returns how many jobs of a class, or of a lower one, wait.
    ///
    /// # Clauses of the proved source
    ///
    /// - requires class: `class < CLASSES`
    /// - requires shows: `(w : Sched) × ShowsJobs w self.now`
    /// - ensures count: `(w : Sched) → ShowsJobs w self.now → IsCount (WaitsUpTo w class) w.next result`
    /// - ensures few: `result < LAST`
    pub fn waiting_up_to(&self, class: u8) -> u64 {
        self.lines.count_classes(class as usize + 1)
    }

    /// Returns how many jobs run.
    ///
    /// # Clauses of the proved source
    ///
    /// - ensures: `(w : Sched) → ShowsJobs w self.now → IsCount (DoesRun w) w.next result`
    pub fn running(&self) -> u64 {
        self.running
    }

    /// Returns how many processors the running jobs use together. Their blocks may have more.
    ///
    /// # Clauses of the proved source
    ///
    /// - ensures: `(w : Sched) → ShowsJobs w self.now → result ≡ asked w`
    pub fn asked(&self) -> u64 {
        self.asked
    }

    /// Returns whether the end of a running job is known.
    ///
    /// # Clauses of the proved source
    ///
    /// - ensures: `(w : Sched) → ShowsJobs w self.now → IsTrue result ↔ HasKnownEnd w`
    pub fn has_known_end(&self) -> bool {
        if self.timed == 0 {
            return false;
        }
        true
    }

    /// Returns how many waiting jobs come before that of a slot. They are of a lower class, or of
    /// its class with a lesser number.
    ///
    /// # Clauses of the proved source
    ///
    /// - requires inside: `slot < capacity_of self.now`
    /// - requires job: `(wait : WaitData) × (place_of self.now slot ≡ Waiting wait)`
    /// - requires shows: `(w : Sched) × ShowsJobs w self.now`
    /// - ensures count: `(w : Sched) (wait : WaitData) → ShowsJobs w self.now → place_of self.now slot ≡ Waiting wait → IsCount (WaitsBefore w (arrival_of self.now slot) wait.job) w.next result`
    /// - ensures few: `result < LAST`
    pub fn count_before(&self, slot: u32) -> u64 {
        let Place::Waiting(wait) = place_at(&self.slots, slot) else {
            return 0;
        };
        let class = wait.job.class as usize;
        let first = class * DIMS;
        let lower = self.lines.count_classes(class);
        let number = self.lines.key(slot);
        lower + self.lines.count(first, first + DIMS, number)
    }

    /// Returns how many waiting jobs come before that of a slot, which was submitted last.
    ///
    /// # Clauses of the proved source
    ///
    /// - requires inside: `slot < capacity_of self.now`
    /// - requires job: `(wait : WaitData) × (place_of self.now slot ≡ Waiting wait)`
    /// - requires last: `arrival_of self.now slot + 1 ≡ self.now.next`
    /// - requires shows: `(w : Sched) × ShowsJobs w self.now`
    /// - ensures count: `(w : Sched) (wait : WaitData) → ShowsJobs w self.now → place_of self.now slot ≡ Waiting wait → IsCount (WaitsBefore w (arrival_of self.now slot) wait.job) w.next result`
    /// - ensures few: `result < LAST`
    pub fn count_before_last(&self, slot: u32) -> u64 {
        let Place::Waiting(wait) = place_at(&self.slots, slot) else {
            return 0;
        };
        self.waiting_up_to(wait.job.class) - 1
    }

    /// Returns the first slot from one on that has a job.
    ///
    /// # Clauses of the proved source
    ///
    /// - requires: `(w : Sched) × ShowsJobs w self.now`
    /// - ensures found: `IfSome result (IsNextUsed self.now from)`
    /// - ensures none: `IfNone result (HasNoneUsed self.now from)`
    pub fn next_used(&self, from: u32) -> Option<u32> {
        next_present(&self.slots, from)
    }

    /// Adds a waiting job, and returns its slot. Returns `None` only if each slot has a job or is
    /// retired; then nothing changes.
    ///
    /// # Clauses of the proved source
    ///
    /// - requires next: `self.old.next < LAST`
    /// - requires class: `job.class < CLASSES`
    /// - requires dim: `job.dim ≤ MAX_BITMAP_DIM`
    /// - requires shows: `(w : Sched) × ShowsJobs w self.old`
    /// - ensures capacity: `capacity_of self.new ≡ capacity_of self.old`
    /// - ensures none: `IfNone result (self.new ≡ self.old)`
    /// - ensures full: `(w : Sched) → ShowsJobs w self.old → IfNone result ((slot : ℕ) → slot < capacity_of self.old → HasJob self.old slot ⊎ IsRetired self.old slot)`
    /// - ensures free: `IfSome result (λ slot. (place_of self.old slot ≡ Absent) × (generation_of self.old slot < MAX_GENERATION))`
    /// - ensures inside: `IfSome result (λ slot. slot < capacity_of self.new)`
    /// - ensures next: `IfSome result (λ slot. self.new.next ≡ self.old.next + 1)`
    /// - ensures place: `IfSome result (λ slot. place_of self.new slot ≡ Waiting (record { job = job; passed = 0 }))`
    /// - ensures arrival: `IfSome result (λ slot. arrival_of self.new slot ≡ self.old.next)`
    /// - ensures generation: `IfSome result (λ slot. generation_of self.new slot ≡ generation_of self.old slot + 1)`
    /// - ensures generations: `IfSome result (λ slot. (u : ℕ) → u ≢ slot → generation_of self.new u ≡ generation_of self.old u)`
    /// - ensures others: `IfSome result (λ slot. HasOthers self.old self.new slot)`
    /// - ensures shows: `(w : Sched) → ShowsJobs w self.old → IfSome result (λ slot. ShowsJobs (submit job w) self.new)`
    pub fn submit(&mut self, job: SchedJob) -> Option<u32> {
        let slot = self.free;
        if slot as usize >= self.slots.len() {
            return None;
        }
        self.take(slot, job);
        Some(slot)
    }

    /// Adds a waiting job in a slot. Returns false only if the slot has a job or is retired; then
    /// nothing changes.
    ///
    /// # Clauses of the proved source
    ///
    /// - requires inside: `slot < capacity_of self.old`
    /// - requires next: `self.old.next < LAST`
    /// - requires class: `job.class < CLASSES`
    /// - requires dim: `job.dim ≤ MAX_BITMAP_DIM`
    /// - requires shows: `(w : Sched) × ShowsJobs w self.old`
    /// - ensures capacity: `capacity_of self.new ≡ capacity_of self.old`
    /// - ensures unchanged: `IsFalse result → self.new ≡ self.old`
    /// - ensures refused: `IsFalse result → HasJob self.old slot ⊎ IsRetired self.old slot`
    /// - ensures free: `IsTrue result → (place_of self.old slot ≡ Absent) × (generation_of self.old slot < MAX_GENERATION)`
    /// - ensures next: `IsTrue result → self.new.next ≡ self.old.next + 1`
    /// - ensures place: `IsTrue result → place_of self.new slot ≡ Waiting (record { job = job; passed = 0 })`
    /// - ensures arrival: `IsTrue result → arrival_of self.new slot ≡ self.old.next`
    /// - ensures generation: `IsTrue result → generation_of self.new slot ≡ generation_of self.old slot + 1`
    /// - ensures generations: `(u : ℕ) → u ≢ slot → generation_of self.new u ≡ generation_of self.old u`
    /// - ensures others: `HasOtherJobs self.old self.new slot`
    /// - ensures shows: `(w : Sched) → ShowsJobs w self.old → IsTrue result → ShowsJobs (submit job w) self.new`
    pub fn submit_into(&mut self, slot: u32, job: SchedJob) -> bool {
        if is_present(&self.slots, slot) {
            return false;
        }
        if generation_at(&self.slots, slot) >= MAX_GENERATION {
            return false;
        }
        self.bring_forward(slot);
        self.take(slot, job);
        true
    }

    // Makes a free slot the first one.
    fn bring_forward(&mut self, slot: u32) {
        if slot == self.free {
            return;
        }
        let before = self.lines.free_before(slot);
        let after = self.lines.free_after(slot);
        self.lines.link(before, after);
        self.lines.link(slot, self.free);
        self.free = slot;
    }

    // Adds a waiting job in the first free slot.
    fn take(&mut self, slot: u32, job: SchedJob) {
        let generation = generation_at(&self.slots, slot) + 1;
        self.free = self.lines.free_after(slot);
        self.lines.join(&job, slot, self.next);
        let wait = SchedWait { job, passed: 0 };
        put(&mut self.slots, slot, generation, Place::Waiting(wait));
        self.next += 1;
    }

    /// Removes a waiting job.
    ///
    /// # Clauses of the proved source
    ///
    /// - requires inside: `slot < capacity_of self.old`
    /// - requires job: `(wait : WaitData) × (place_of self.old slot ≡ Waiting wait)`
    /// - requires shows: `(w : Sched) × ShowsJobs w self.old`
    /// - ensures capacity: `capacity_of self.new ≡ capacity_of self.old`
    /// - ensures next: `self.new.next ≡ self.old.next`
    /// - ensures generations: `HasGenerations self.old self.new`
    /// - ensures place: `place_of self.new slot ≡ Absent`
    /// - ensures others: `HasOthers self.old self.new slot`
    /// - ensures shows: `(w : Sched) → ShowsJobs w self.old → ShowsJobs (cancel (arrival_of self.old slot) w) self.new`
    pub fn cancel(&mut self, slot: u32) {
        let Place::Waiting(wait) = place_at(&self.slots, slot) else {
            return;
        };
        self.lines.leave(&wait.job, slot);
        self.clear(slot);
    }

    /// Removes a running job.
    ///
    /// # Clauses of the proved source
    ///
    /// - requires inside: `slot < capacity_of self.old`
    /// - requires job: `(run : RunData) × (place_of self.old slot ≡ Running run)`
    /// - requires shows: `(w : Sched) × ShowsJobs w self.old`
    /// - ensures capacity: `capacity_of self.new ≡ capacity_of self.old`
    /// - ensures next: `self.new.next ≡ self.old.next`
    /// - ensures generations: `HasGenerations self.old self.new`
    /// - ensures place: `place_of self.new slot ≡ Absent`
    /// - ensures others: `HasOthers self.old self.new slot`
    /// - ensures shows: `(w : Sched) → ShowsJobs w self.old → ShowsJobs (finish (arrival_of self.old slot) w) self.new`
    pub fn finish(&mut self, slot: u32) {
        let Place::Running(ended) = place_at(&self.slots, slot) else {
            return;
        };
        self.running -= 1;
        self.asked -= processors_of(&ended.job);
        self.timed -= count_known(ended.end);
        self.clear(slot);
    }

    // Makes a slot free, unless it has had as many jobs as it may have. It is in no line.
    fn clear(&mut self, slot: u32) {
        let generation = generation_at(&self.slots, slot);
        put(&mut self.slots, slot, generation, Place::Absent);
        let is_last = generation >= MAX_GENERATION;
        if is_last {
            return;
        }
        self.lines.link(slot, self.free);
        self.free = slot;
    }

    /// Lets a waiting job run in a block, with this estimated end.
    ///
    /// # Clauses of the proved source
    ///
    /// - requires inside: `slot < capacity_of self.old`
    /// - requires shows: `(w : Sched) × ShowsJobs w self.old`
    /// - ensures capacity: `capacity_of self.new ≡ capacity_of self.old`
    /// - ensures next: `self.new.next ≡ self.old.next`
    /// - ensures generations: `HasGenerations self.old self.new`
    /// - ensures arrival: `arrival_of self.new slot ≡ arrival_of self.old slot`
    /// - ensures place: `(wait : WaitData) → place_of self.old slot ≡ Waiting wait → place_of self.new slot ≡ Running (record { job = wait.job; block = block; end = end; })`
    /// - ensures others: `HasOthers self.old self.new slot`
    /// - ensures shows: `(w : Sched) (wait : WaitData) → ShowsJobs w self.old → place_of self.old slot ≡ Waiting wait → end ≡ end_after w.now wait.job.estimate → ShowsJobs (start (arrival_of self.old slot) wait.job block w) self.new`
    pub fn start(&mut self, slot: u32, block: Region, end: u64) {
        let Place::Waiting(wait) = place_at(&self.slots, slot) else {
            return;
        };
        let generation = generation_at(&self.slots, slot);
        let run = SchedRun {
            job: wait.job,
            block,
            end,
        };
        // The slot is written first, so that no copy of the job is kept while it leaves its line.
        put(&mut self.slots, slot, generation, Place::Running(run));
        self.running += 1;
        self.asked += processors_of(&wait.job);
        self.timed += count_known(end);
        self.lines.leave(&wait.job, slot);
    }

    /// Counts that a job with a block of dimension `k` passes a waiting one.
    ///
    /// # Clauses of the proved source
    ///
    /// - requires inside: `slot < capacity_of self.old`
    /// - requires dim: `k ≤ MAX_BITMAP_DIM`
    /// - ensures capacity: `capacity_of self.new ≡ capacity_of self.old`
    /// - ensures next: `self.new.next ≡ self.old.next`
    /// - ensures generations: `HasGenerations self.old self.new`
    /// - ensures arrival: `arrival_of self.new slot ≡ arrival_of self.old slot`
    /// - ensures place: `(wait : WaitData) → place_of self.old slot ≡ Waiting wait → place_of self.new slot ≡ Waiting (record { job = wait.job; passed = min (wait.passed + 2 ^ k) LAST; })`
    /// - ensures others: `HasOthers self.old self.new slot`
    /// - ensures shows: `(w : Sched) (wait : WaitData) → ShowsJobs w self.old → place_of self.old slot ≡ Waiting wait → ShowsJobs (pass (arrival_of self.old slot) wait k w) self.new`
    pub fn pass(&mut self, slot: u32, k: u32) {
        let Place::Waiting(wait) = place_at(&self.slots, slot) else {
            return;
        };
        let generation = generation_at(&self.slots, slot);
        let passed = passed_more(wait.passed, k);
        let after = SchedWait {
            job: wait.job,
            passed,
        };
        put(&mut self.slots, slot, generation, Place::Waiting(after));
    }
}

// Returns how much has passed a job after a block of dimension `k`.
fn passed_more(passed: u64, k: u32) -> u64 {
    passed.saturating_add(1 << k)
}
