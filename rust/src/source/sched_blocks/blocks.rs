// Made from crates/sched_blocks/src/blocks.rt by checks/lib/erase.py. Change that file.
//! The blocks of a scheduler as a value.

use crate::source::sched_blocks::ends::end_at;
use crate::source::sched_blocks::nodes::{block_of, node_of, note_idle, note_use};
use crate::source::sched_blocks::trees::{is_earlier, open};
use crate::source::cube_shape::{MAX_BITMAP_DIM, Region};
use crate::source::fit_tree::FitTree;
use crate::source::kit::fixed_vec::{FixedVec, Store};
use crate::source::kit::alloc::AllocError;

/// The blocks of a scheduler for one thread: those in use, by a job or out of service, and the ends
/// of the jobs.
///
/// Only `new` takes memory, about `28 * 2^n` bytes.
#[derive(Debug)]
pub struct Blocks {
    dim: u32,
    used: FitTree,
    out: FitTree,
    ends: FixedVec<u64>,
    busy: FixedVec<u32>,
}

impl Blocks {
    /// Creates the blocks of a machine of dimension `n`, of which none is in use, in memory of a
    /// store.
    ///
    /// # Clauses of the proved source
    ///
    /// - requires: `n ≤ MAX_BITMAP_DIM`
    /// - ensures dim: `IfOk result (λ made. made.dim ≡ n)`
    /// - ensures shows: `IfOk result (λ made. (patience : ℕ) → Shows (initial n patience) made)`
    /// - ensures spends: `OnOk result (Spends (block_words n) store.old store.new)`
    /// - ensures enough: `HasWords (block_words n) store.old → IsOk result`
    pub fn new(store: &mut Store, n: u32) -> Result<Self, AllocError> {
        let used = FitTree::new_in(store, n)?;
        let out = FitTree::new_in(store, n)?;
        let mut ends = store.filled(0u64, 2 << n, 2 << n)?;
        let mut busy = store.filled(0u32, 2 << n, 1 << n)?;
        open(&mut ends, &mut busy);
        Ok(Blocks {
            dim: n,
            used,
            out,
            ends,
            busy,
        })
    }

    /// Returns the dimension of the machine.
    ///
    /// # Clauses of the proved source
    ///
    /// - ensures dim: `result ≡ self.now.dim`
    /// - ensures limit: `result ≤ MAX_BITMAP_DIM`
    pub fn dim(&self) -> u32 {
        self.dim
    }

    /// Returns the first vacant block of dimension `k`, if there is one.
    ///
    /// # Clauses of the proved source
    ///
    /// - requires: `k ≤ self.now.dim`
    /// - ensures aligned: `IfSome result (λ r. IsAligned self.now.dim r)`
    /// - ensures first: `(w : Sched) → Shows w self.now → IfSome result (λ r. (m : ℕ) × (r ≡ block k m) × IsFirst w.dim k (IsVacant w) m)`
    /// - ensures none: `(w : Sched) → Shows w self.now → IfNone result (HasNone w.dim k (IsVacant w))`
    pub fn first(&self, k: u32) -> Option<Region> {
        self.used.first(k)
    }

    /// Returns the first vacant block of dimension `k` apart from one that is to be avoided, if any
    /// is.
    ///
    /// # Clauses of the proved source
    ///
    /// - requires dim: `k ≤ self.now.dim`
    /// - requires avoid: `IsAligned self.now.dim avoid`
    /// - ensures aligned: `IfSome result (λ r. IsAligned self.now.dim r)`
    /// - ensures first: `(w : Sched) → Shows w self.now → IfSome result (λ r. (m : ℕ) × (r ≡ block k m) × IsFirst w.dim k (IsVacantBeside w avoid) m)`
    /// - ensures none: `(w : Sched) → Shows w self.now → IfNone result (HasNone w.dim k (IsVacantBeside w avoid))`
    pub fn first_beside(&self, k: u32, avoid: Region) -> Option<Region> {
        self.used.first_apart(k, avoid)
    }

    /// Returns the largest dimension of a vacant block, or `None` if no processor is vacant.
    ///
    /// # Clauses of the proved source
    ///
    /// - ensures dim: `IfSome result (λ l. l ≤ self.now.dim)`
    /// - ensures largest: `(w : Sched) → Shows w self.now → IfSome result (λ l. (k : ℕ) → k ≤ w.dim → HasNone w.dim k (IsVacant w) ↔ (l < k))`
    /// - ensures none: `(w : Sched) → Shows w self.now → IfNone result ((k : ℕ) → k ≤ w.dim → HasNone w.dim k (IsVacant w))`
    pub fn largest_vacant(&self) -> Option<u32> {
        self.used.largest_free()
    }

    /// Returns the largest dimension of a block of which no part is out of service, or `None` if
    /// all processors are.
    ///
    /// # Clauses of the proved source
    ///
    /// - ensures dim: `IfSome result (λ l. l ≤ self.now.dim)`
    /// - ensures largest: `(w : Sched) → Shows w self.now → IfSome result (λ l. (k : ℕ) → HasUsable w k ↔ (k ≤ l))`
    /// - ensures none: `(w : Sched) → Shows w self.now → IfNone result ((k : ℕ) → HasUsable w k → ⊥)`
    pub fn largest_usable(&self) -> Option<u32> {
        let Some(k) = self.out.largest_free() else {
            return None;
        };
        let Some(region) = self.out.first(k) else {
            return None;
        };
        Some(region.dim)
    }

    /// Returns the latest end of a block.
    ///
    /// # Clauses of the proved source
    ///
    /// - requires: `IsAligned self.now.dim region`
    /// - ensures: `(w : Sched) → Shows w self.now → IsLatest w region result`
    pub fn latest(&self, region: Region) -> u64 {
        let own = node_of(self.dim, region);
        let Some(above) = self.used.block_with(region.base) else {
            return end_at(&self.ends, own);
        };
        if above.dim < region.dim {
            return end_at(&self.ends, own);
        }
        end_at(&self.ends, node_of(self.used.dim(), above))
    }

    /// Notes that a job runs in a vacant block, with this estimated end.
    ///
    /// # Clauses of the proved source
    ///
    /// - requires: `IsAligned self.old.dim region`
    /// - ensures dim_stays: `self.new.dim ≡ self.old.dim`
    /// - ensures shows: `(w : Sched) (j : ℕ) (wait : WaitData) → Shows w self.old → Waits w j wait → IsVacant w region → region.dim ≡ wait.job.dim → end ≡ end_after w.now wait.job.estimate → Shows (start j wait.job region w) self.new`
    pub fn start(&mut self, region: Region, end: u64) {
        let Ok(()) = self.used.take_at(region) else {
            return;
        };
        note_use(&mut self.ends, &mut self.busy, self.dim, region, end);
    }

    /// Notes that the job of a block is over.
    ///
    /// # Clauses of the proved source
    ///
    /// - ensures dim_stays: `self.new.dim ≡ self.old.dim`
    /// - ensures shows: `(w : Sched) (j : ℕ) (run : RunData) → Shows w self.old → Runs w j run → run.block ≡ region → Shows (finish j w) self.new`
    pub fn finish(&mut self, region: Region) {
        let n = self.used.dim();
        let Ok(()) = self.used.release(region) else {
            return;
        };
        note_idle(&mut self.ends, &mut self.busy, n, region);
    }

    /// Takes a block out of service. Returns false only if a part of it is in use; then nothing
    /// changes.
    ///
    /// # Clauses of the proved source
    ///
    /// - requires: `IsAligned self.old.dim region`
    /// - ensures dim_stays: `self.new.dim ≡ self.old.dim`
    /// - ensures vacant: `(w : Sched) → Shows w self.old → IsTrue result ↔ IsVacant w region`
    /// - ensures shows: `(w : Sched) → Shows w self.old → IsVacant w region → Shows (occupy region w) self.new`
    /// - ensures unchanged: `(w : Sched) → Shows w self.old → (IsVacant w region → ⊥) → self.new ≡ self.old`
    pub fn occupy(&mut self, region: Region) -> bool {
        let Ok(()) = self.used.take_at(region) else {
            return false;
        };
        let Ok(()) = self.out.take_at(region) else {
            return false;
        };
        note_use(&mut self.ends, &mut self.busy, self.dim, region, 0);
        true
    }

    /// Puts a block back into service. Returns false only if it is not out of service as one block;
    /// then nothing changes.
    ///
    /// # Clauses of the proved source
    ///
    /// - ensures dim_stays: `self.new.dim ≡ self.old.dim`
    /// - ensures out: `(w : Sched) → Shows w self.old → IsTrue result ↔ (w.occupied region.base ≡ Some region)`
    /// - ensures shows: `(w : Sched) → Shows w self.old → w.occupied region.base ≡ Some region → Shows (vacate region w) self.new`
    /// - ensures unchanged: `(w : Sched) → Shows w self.old → (w.occupied region.base ≡ Some region → ⊥) → self.new ≡ self.old`
    pub fn vacate(&mut self, region: Region) -> bool {
        let n = self.out.dim();
        let Ok(()) = self.out.release(region) else {
            return false;
        };
        let Ok(()) = self.used.release(region) else {
            return false;
        };
        note_idle(&mut self.ends, &mut self.busy, n, region);
        true
    }

    /// Returns the largest dimension of a vacant block apart from one that is to be avoided, or
    /// `None` if there is no such block.
    ///
    /// # Clauses of the proved source
    ///
    /// - requires: `IsAligned self.now.dim avoid`
    /// - ensures dim: `IfSome result (λ l. l ≤ self.now.dim)`
    /// - ensures largest: `(w : Sched) → Shows w self.now → IfSome result (λ l. (k : ℕ) → k ≤ w.dim → HasNone w.dim k (IsVacantBeside w avoid) ↔ (l < k))`
    /// - ensures none: `(w : Sched) → Shows w self.now → IfNone result ((k : ℕ) → k ≤ w.dim → HasNone w.dim k (IsVacantBeside w avoid))`
    pub fn largest_beside(&self, avoid: Region) -> Option<u32> {
        self.used.largest_apart(avoid)
    }

    /// Returns the block of dimension `k` to reserve, if there is a usable one. The way down from
    /// the machine goes to the better half with a usable block.
    ///
    /// # Clauses of the proved source
    ///
    /// - requires: `k ≤ self.now.dim`
    /// - ensures aligned: `IsAligned self.now.dim result`
    /// - ensures dim: `result.dim ≡ k`
    /// - ensures chosen: `(w : Sched) → Shows w self.now → HasUsable w k → Chooses w k (block w.dim 0) result`
    pub fn choose(&self, k: u32) -> Region {
        let mut node = 1;
        for _ in k..self.dim {
            node = self.better_child(k, node);
        }
        block_of(self.dim, k, node)
    }

    /// Returns how many processors jobs hold.
    ///
    /// # Clauses of the proved source
    ///
    /// - ensures: `(w : Sched) → Shows w self.now → IsCount (IsHeld (held w)) (2 ^ w.dim) result`
    pub fn held_processors(&self) -> u32 {
        let out = self.out.held_processors();
        self.used.held_processors().saturating_sub(out)
    }

    /// Returns how many processors are out of service.
    ///
    /// # Clauses of the proved source
    ///
    /// - ensures: `(w : Sched) → Shows w self.now → IsCount (IsHeld w.occupied) (2 ^ w.dim) result`
    pub fn occupied_processors(&self) -> u32 {
        self.out.held_processors()
    }

    // Returns the child of a node in which the block to reserve is.
    fn better_child(&self, k: u32, node: usize) -> usize {
        let lower = 2 * node;
        let upper = lower + 1;
        if !self.out.has_fit_at(k, upper) {
            return lower;
        }
        if !self.out.has_fit_at(k, lower) {
            return upper;
        }
        if is_earlier(&self.ends, &self.busy, upper, lower) {
            return upper;
        }
        lower
    }
}
