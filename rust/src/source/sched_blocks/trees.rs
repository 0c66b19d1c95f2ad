// Made from crates/sched_blocks/src/trees.rt by checks/lib/erase.py. Change that file.
//! Both trees.

/// Makes the trees those of a machine of which no block is in use.
///
/// # Clauses of the proved source
///
/// - ensures ends_len: `length ends.new ≡ length ends.old`
/// - ensures busy_len: `length busy.new ≡ length busy.old`
/// - ensures ends: `(n : ℕ) → AreEnds n (λ u. 0) ends.new`
/// - ensures busy: `(n : ℕ) → AreBusy n (λ u. false) busy.new`
pub fn open(ends: &mut [u64], busy: &mut [u32]) {
    ends.fill(0);
    clear(busy);
}

// Makes all entries 0.
fn clear(busy: &mut [u32]) {
    busy.fill(0);
}

/// Returns whether node `a` is the better one for a reservation: its latest end is earlier, or it
/// is the same and less is busy.
///
/// # Clauses of the proved source
///
/// - requires a_ends: `a < length ends.now`
/// - requires b_ends: `b < length ends.now`
/// - requires a_busy: `a < length busy.now`
/// - requires b_busy: `b < length busy.now`
/// - ensures: `IsTrue result ↔ IsEarlier ends.now busy.now a b`
pub fn is_earlier(ends: &[u64], busy: &[u32], a: usize, b: usize) -> bool {
    if ends[a] == ends[b] {
        return busy[a] < busy[b];
    }
    ends[a] < ends[b]
}
