// Made from crates/wake_calls/src/sleeping.rt by checks/lib/erase.py. Change that file.

use crate::source::wake_calls::rule::WakeRule;
use crate::source::wake_calls::steps::{check, come_back, read_mail, rise, stay};
use crate::source::kit::atomic_table::{Seat, Shared};

/// The outcome of a worker's tries to take its bit back.
#[derive(Clone, Copy, Debug, PartialEq, Eq)]
pub enum Back {
    /// It is the searcher of its word.
    Searches,
    /// Another searches, or has woken it. It goes on to its mailbox.
    Stays,
    /// The tries are over.
    Again,
}

/// What a worker does that has set its bit and has no job.
#[derive(Clone, Copy, Debug, PartialEq, Eq)]
pub enum Asleep {
    /// It has a call, and is idle. It takes its call next.
    Call,
    /// It has a call, and was woken: it is the searcher of its word and has work.
    CallOfSearcher,
    /// It was woken: it is the searcher of its word.
    Woken,
    /// It parks until it has its token.
    Park,
}

/// Takes back the bit of a worker that has seen a job, by at most this number of tries.
///
/// # Clauses of the proved source
///
/// - requires table: `seat.old.table_id ≡ shared.now.table_id`
/// - requires words: `base workers ≤ shared.now.table_id.words`
/// - requires phase: `R.threads seat.old.me.0 ≡ thread worker workers (R.lanes shared.now.key) Returning`
/// - requires worker: `worker < workers`
/// - ensures table: `seat.new.table_id ≡ seat.old.table_id`
/// - ensures searches: `result ≡ Searches → seat.new.me ≡ moved R.goes Searching seat.old.me`
/// - ensures stays: `result ≡ Stays → seat.new.me ≡ moved R.goes Reading seat.old.me`
/// - ensures again: `result ≡ Again → seat.new.me ≡ seat.old.me`
pub fn try_back<V, K, R: WakeRule<V, K>>(
    shared: &Shared<(), V, K, R>,
    workers: u32,
    seat: &mut Seat<(), V>,
    worker: u32,
    tries: u32,
) -> Back {
    for _ in 0..tries {
        let Some(seen) = stay(shared, workers, seat, worker) else {
            return Back::Stays;
        };
        if come_back(shared, workers, seat, worker, seen) {
            return Back::Searches;
        }
    }
    Back::Again
}

/// Looks at the mailbox and then at the bit of a worker that has rested, or that has taken its
/// token.
///
/// # Clauses of the proved source
///
/// - requires table: `seat.old.table_id ≡ shared.now.table_id`
/// - requires words: `base workers ≤ shared.now.table_id.words`
/// - requires phase: `R.threads seat.old.me.0 ≡ thread worker workers (R.lanes shared.now.key) Reading`
/// - requires worker: `worker < workers`
/// - ensures table: `seat.new.table_id ≡ seat.old.table_id`
/// - ensures call: `result ≡ Call → seat.new.me ≡ noting R.noted RoseForCall (moved R.goes Idle seat.old.me)`
/// - ensures call_of_searcher: `result ≡ CallOfSearcher → seat.new.me ≡ moved R.goes Found seat.old.me`
/// - ensures woken: `result ≡ Woken → seat.new.me ≡ moved R.goes Searching seat.old.me`
/// - ensures park: `result ≡ Park → seat.new.me ≡ moved R.goes Parked seat.old.me`
pub fn before_park<V, K, R: WakeRule<V, K>>(
    shared: &Shared<(), V, K, R>,
    workers: u32,
    seat: &mut Seat<(), V>,
    worker: u32,
) -> Asleep {
    if read_mail(shared, workers, seat, worker) {
        if rise(shared, workers, seat, worker) {
            return Asleep::Call;
        }
        return Asleep::CallOfSearcher;
    }
    if check(shared, workers, seat, worker) {
        return Asleep::Park;
    }
    Asleep::Woken
}
