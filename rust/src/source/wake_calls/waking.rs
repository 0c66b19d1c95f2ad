// Made from crates/wake_calls/src/waking.rt by checks/lib/erase.py. Change that file.

use crate::source::wake_calls::rule::WakeRule;
use crate::source::wake_calls::steps::{Noticed, notice, wake};
use crate::source::kit::atomic_table::{Seat, Shared};
use crate::source::wake_pool::{WORD_WORKERS, word_count};

/// The outcome of a wake.
#[derive(Clone, Copy, Debug, PartialEq, Eq)]
pub enum Wake {
    /// Nobody has to be woken: one searches, or nobody sleeps.
    Nobody,
    /// The bit of this worker is cleared. It is to be given its token next, and unparked.
    Worker(u32),
    /// The tries are over, and the words from this one on are still to be looked at.
    Again(u64),
}

// The outcome of a look at one word.
#[must_use = "the proved source spends each value of this type by a call"]
enum Next {
    // One searches.
    Enough,
    // No worker of the word sleeps.
    Over,
    // The bit of this worker is cleared.
    Taken(u32),
    // The word was changed by another thread.
    Lost,
}

// Returns the first worker whose bit is set in this word of sleepers.
fn first_sleeper(word: u64, seen: u64) -> u64 {
    word * WORD_WORKERS as u64 + seen.trailing_zeros() as u64
}

// Looks at one word, and tries once to wake a sleeper.
fn wake_next<V, K, R: WakeRule<V, K>>(
    shared: &Shared<(), V, K, R>,
    workers: u32,
    seat: &mut Seat<(), V>,
    word: u64,
) -> Next {
    match notice(shared, workers, seat, word) {
        Noticed::Searched => Next::Enough,
        Noticed::NobodySleeps => Next::Over,
        Noticed::Sleeping(seen) => {
            let sleeper = first_sleeper(word, seen) as u32;
            if wake(shared, workers, seat, seen, sleeper) {
                return Next::Taken(sleeper);
            }
            Next::Lost
        }
    }
}

/// Looks at the words of sleepers from `word` on, until one has a searcher. If none has, it clears
/// the bit of one sleeper, by at most this number of tries.
///
/// # Clauses of the proved source
///
/// - requires table: `seat.old.table_id ≡ shared.now.table_id`
/// - requires words: `base workers ≤ shared.now.table_id.words`
/// - requires phase: `IsIn (R.threads seat.old.me.0) workers (R.lanes shared.now.key) (waking (word_count workers) word)`
/// - ensures table: `seat.new.table_id ≡ seat.old.table_id`
/// - ensures nobody: `result ≡ Nobody → seat.new.me ≡ moved R.goes Idle seat.old.me`
/// - ensures woken: `(x : ℕ) → result ≡ Worker x → seat.new.me ≡ moved R.goes (Giving x) seat.old.me`
/// - ensures worker: `(x : ℕ) → result ≡ Worker x → x < workers`
/// - ensures again: `(b : ℕ) → result ≡ Again b → seat.new.me ≡ moved R.goes (Waking b) seat.old.me`
/// - ensures left: `(b : ℕ) → result ≡ Again b → b < word_count workers`
pub fn wake_check<V, K, R: WakeRule<V, K>>(
    shared: &Shared<(), V, K, R>,
    workers: u32,
    seat: &mut Seat<(), V>,
    word: u64,
    tries: u32,
) -> Wake {
    let count = word_count(workers);
    let mut word = word;
    for _ in 0..tries {
        if word >= count {
            return Wake::Nobody;
        }
        match wake_next(shared, workers, seat, word) {
            Next::Enough => return Wake::Nobody,
            Next::Over => word += 1,
            Next::Taken(sleeper) => return Wake::Worker(sleeper),
            Next::Lost => {}
        }
    }
    if word >= count {
        return Wake::Nobody;
    }
    Wake::Again(word)
}
