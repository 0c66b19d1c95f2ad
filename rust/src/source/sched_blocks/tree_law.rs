// Made from crates/sched_blocks/src/tree_law.rt by checks/lib/erase.py. Change that file.
//! What the trees say of a state of the scheduler.

/// Says what the entries of a node with none in use above it are: the latest end of its block, and
/// how many are busy. Below a node in use the latest end is that node's, and all processors are
/// busy. Of two halves the entries say which is the better one.
///
/// # Clauses of the proved source
///
/// - ensures latest: `(w : Sched) (own : ℕ → ℕ) (used : ℕ → Bool) (ends busy : List ℕ) (v : ℕ) (r : Region) → Tracks w own used ends busy → IsNodeOf w.dim v r → HasNoneAbove used v → IsLatest w r (entry_of ends v)`
/// - ensures latest_under: `(w : Sched) (own : ℕ → ℕ) (used : ℕ → Bool) (ends busy : List ℕ) (u v : ℕ) (r : Region) → Tracks w own used ends busy → IsNodeOf w.dim v r → used u ≡ true → OnPath u v → IsLatest w r (entry_of ends u)`
/// - ensures busy: `(w : Sched) (own : ℕ → ℕ) (used : ℕ → Bool) (ends busy : List ℕ) (v : ℕ) (r : Region) → Tracks w own used ends busy → IsNodeOf w.dim v r → HasNoneAbove used v → IsBusyCount w r (entry_of busy v)`
/// - ensures busy_under: `(w : Sched) (own : ℕ → ℕ) (used : ℕ → Bool) (ends busy : List ℕ) (u v : ℕ) (r : Region) → Tracks w own used ends busy → IsNodeOf w.dim v r → used u ≡ true → OnPath u v → IsBusyCount w r (2 ^ r.dim)`
/// - ensures better: `(w : Sched) (own : ℕ → ℕ) (used : ℕ → Bool) (ends busy : List ℕ) (v : ℕ) (r : Region) → Tracks w own used ends busy → IsNodeOf w.dim v r → 0 < r.dim → IsEarlier ends busy (2 * v + 1) (2 * v) ↔ IsBetter w (upper_half r) (lower_half r)`
pub fn trees_serve_the_policy() {}

/// Says that no other node above or below one in use is in use, and none at, above or below a
/// vacant block. What is not in use has no end.
///
/// # Clauses of the proved source
///
/// - ensures used: `(w : Sched) (own : ℕ → ℕ) (used : ℕ → Bool) (ends busy : List ℕ) (v : ℕ) → Tracks w own used ends busy → IsInCube w.dim v → used v ≡ true → HasNoneBeside w.dim used v`
/// - ensures vacant: `(w : Sched) (own : ℕ → ℕ) (used : ℕ → Bool) (ends busy : List ℕ) (v : ℕ) (r : Region) → Tracks w own used ends busy → IsNodeOf w.dim v r → IsVacant w r → HasNoneBeside w.dim used v`
/// - ensures vacant_idle: `(w : Sched) (own : ℕ → ℕ) (used : ℕ → Bool) (ends busy : List ℕ) (v : ℕ) (r : Region) → Tracks w own used ends busy → IsNodeOf w.dim v r → IsVacant w r → used v ≡ false`
/// - ensures idle: `(w : Sched) (own : ℕ → ℕ) (used : ℕ → Bool) (ends busy : List ℕ) (v : ℕ) → Tracks w own used ends busy → IsInCube w.dim v → used v ≡ false → own v ≡ 0`
/// - ensures passed: `(w : Sched) (h : ℕ) (head : WaitData) (k : ℕ) (r : Region) → IsVacant w r → IsVacant (pass h head k w) r`
/// - ensures beside: `(w : Sched) (own : ℕ → ℕ) (used : ℕ → Bool) (ends busy : List ℕ) (v : ℕ) → Tracks w own used ends busy → HasNoneBeside w.dim used v → HasNoEndBeside w.dim own v`
pub fn blocks_in_use_are_apart() {}

/// Says which own end changes by a call or a step of a decision. It is that of the node whose block
/// a job gets or gives back.
///
/// # Clauses of the proved source
///
/// - ensures initial: `(n patience : ℕ) → AreOwnEnds (initial n patience) (λ u. 0)`
/// - ensures submit: `(w : Sched) (own : ℕ → ℕ) (job : JobData) → AreOwnEnds w own → IsSafe w → AreOwnEnds (submit job w) own`
/// - ensures cancel: `(w : Sched) (own : ℕ → ℕ) (j : ℕ) (wait : WaitData) → AreOwnEnds w own → Waits w j wait → AreOwnEnds (cancel j w) own`
/// - ensures at: `(w : Sched) (own : ℕ → ℕ) (t : ℕ) → AreOwnEnds w own → AreOwnEnds (at t w) own`
/// - ensures pass: `(w : Sched) (own : ℕ → ℕ) (h : ℕ) (head : WaitData) (k : ℕ) → AreOwnEnds w own → Waits w h head → AreOwnEnds (pass h head k w) own`
/// - ensures reserve: `(w : Sched) (own : ℕ → ℕ) (j : ℕ) (r : Region) → AreOwnEnds w own → AreOwnEnds (reserve j r w) own`
/// - ensures occupy: `(w : Sched) (own : ℕ → ℕ) (r : Region) → AreOwnEnds w own → AreOwnEnds (occupy r w) own`
/// - ensures vacate: `(w : Sched) (own : ℕ → ℕ) (r : Region) → AreOwnEnds w own → AreOwnEnds (vacate r w) own`
/// - ensures start: `(w : Sched) (own : ℕ → ℕ) (j v : ℕ) (wait : WaitData) (job : JobData) (r : Region) → AreOwnEnds w own → Waits w j wait → IsFree (held w) r → IsNodeOf w.dim v r → AreOwnEnds (start j job r w) (set own v (end_after w.now job.estimate))`
/// - ensures finish: `(w : Sched) (own : ℕ → ℕ) (j v : ℕ) (run : RunData) → AreOwnEnds w own → IsSafe w → Runs w j run → IsNodeOf w.dim v run.block → AreOwnEnds (finish j w) (set own v 0)`
pub fn ends_follow_the_state() {}

/// Says which node changes its use by a call or a step of a decision. It is that whose block a job
/// gets or gives back, or goes out of service or returns.
///
/// # Clauses of the proved source
///
/// - ensures initial: `(n patience : ℕ) → AreUsed (initial n patience) (λ u. false)`
/// - ensures submit: `(w : Sched) (used : ℕ → Bool) (job : JobData) → AreUsed w used → IsSafe w → AreUsed (submit job w) used`
/// - ensures cancel: `(w : Sched) (used : ℕ → Bool) (j : ℕ) (wait : WaitData) → AreUsed w used → Waits w j wait → AreUsed (cancel j w) used`
/// - ensures at: `(w : Sched) (used : ℕ → Bool) (t : ℕ) → AreUsed w used → AreUsed (at t w) used`
/// - ensures pass: `(w : Sched) (used : ℕ → Bool) (h : ℕ) (head : WaitData) (k : ℕ) → AreUsed w used → Waits w h head → AreUsed (pass h head k w) used`
/// - ensures reserve: `(w : Sched) (used : ℕ → Bool) (j : ℕ) (r : Region) → AreUsed w used → AreUsed (reserve j r w) used`
/// - ensures start: `(w : Sched) (used : ℕ → Bool) (j v : ℕ) (wait : WaitData) (job : JobData) (r : Region) → AreUsed w used → Waits w j wait → IsNodeOf w.dim v r → AreUsed (start j job r w) (set used v true)`
/// - ensures finish: `(w : Sched) (used : ℕ → Bool) (j v : ℕ) (run : RunData) → AreUsed w used → IsSafe w → Runs w j run → IsNodeOf w.dim v run.block → AreUsed (finish j w) (set used v false)`
/// - ensures occupy: `(w : Sched) (used : ℕ → Bool) (v : ℕ) (r : Region) → AreUsed w used → IsSafe w → IsVacant w r → IsNodeOf w.dim v r → AreUsed (occupy r w) (set used v true)`
/// - ensures vacate: `(w : Sched) (used : ℕ → Bool) (v : ℕ) (r : Region) → AreUsed w used → IsSafe w → w.occupied r.base ≡ Some r → IsNodeOf w.dim v r → AreUsed (vacate r w) (set used v false)`
pub fn uses_follow_the_state() {}

/// Says that both trees depend on the nodes alone, and a state decides which of them are in use and
/// until when. The taken nodes of a fit tree are in use if it holds the blocks in use.
///
/// # Clauses of the proved source
///
/// - ensures ends: `(n : ℕ) (own other : ℕ → ℕ) (ends : List ℕ) → ((u : ℕ) → IsInCube n u → own u ≡ other u) → AreEnds n own ends → AreEnds n other ends`
/// - ensures busy: `(n : ℕ) (used other : ℕ → Bool) (busy : List ℕ) → ((u : ℕ) → IsInCube n u → used u ≡ other u) → AreBusy n used busy → AreBusy n other busy`
/// - ensures own: `(w : Sched) (own other : ℕ → ℕ) (u : ℕ) → AreOwnEnds w own → AreOwnEnds w other → IsInCube w.dim u → own u ≡ other u`
/// - ensures used: `(w : Sched) (used other : ℕ → Bool) (u : ℕ) → AreUsed w used → AreUsed w other → IsInCube w.dim u → used u ≡ other u`
/// - ensures rooms: `(w : Sched) (rooms : List ℕ) → AreSound w.dim rooms → ((r : Region) → HasBlock (held_in (fit_in w.dim rooms)) r ↔ IsInUse w r) → AreUsed w (λ v. room_of rooms v == 0)`
pub fn states_decide_the_trees() {}
