// Made from crates/sched_blocks/src/law.rt by checks/lib/erase.py. Change that file.
//! What changes no block.

/// Says that blocks still show the state after a call that is not about them. So they do after a
/// job passes the head, or a block is reserved.
///
/// # Clauses of the proved source
///
/// - ensures safe: `(w : Sched) (b : Layout) → Shows w b → IsSafe w`
/// - ensures submit: `(w : Sched) (b : Layout) (job : JobData) → Shows w b → IsSound w.dim job → Shows (submit job w) b`
/// - ensures cancel: `(w : Sched) (b : Layout) (j : ℕ) (wait : WaitData) → Shows w b → Waits w j wait → Shows (cancel j w) b`
/// - ensures at: `(w : Sched) (b : Layout) (t : ℕ) → Shows w b → Shows (at t w) b`
/// - ensures pass: `(w : Sched) (b : Layout) (h : ℕ) (head : WaitData) (k : ℕ) → Shows w b → Waits w h head → Shows (pass h head k w) b`
/// - ensures reserve: `(w : Sched) (b : Layout) (j : ℕ) (r : Region) → Shows w b → IsSafe (reserve j r w) → Shows (reserve j r w) b`
/// - ensures prepare: `(w v : Sched) (b : Layout) (h : ℕ) (head : WaitData) → Shows w b → IsHead w h head → Prepares w h head v → Shows v b`
pub fn other_calls_change_no_block() {}
