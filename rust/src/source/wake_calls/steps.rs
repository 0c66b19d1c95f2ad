// Made from crates/wake_calls/src/steps.rt by checks/lib/erase.py. Change that file.

use crate::source::wake_calls::plays::{
    Calls, Checks, Claims, FindsCall, Gives, Leaves, Notices, Reads, Rests, Returns, Rings, Rises,
    Stays, TakesCall, Waits, Wakes,
};
use crate::source::wake_calls::rule::WakeRule;
use crate::source::kit::atomic_table::{Seat, Shared};
use crate::source::wake_pool::{SEARCH, bit_of, has_bit, mail_at, token_at, word_of};

/// What a thread that has put or seen a job finds in a word of sleepers.
#[derive(Clone, Copy, Debug, PartialEq, Eq)]
pub enum Noticed {
    /// A worker of the word searches.
    Searched,
    /// No worker of the word sleeps.
    NobodySleeps,
    /// Workers sleep and none searches. The word is this one.
    Sleeping(u64),
}

/// Makes an idle worker the searcher of its word, if there is none. Returns whether it did.
///
/// # Clauses of the proved source
///
/// - requires table: `seat.old.table_id ≡ shared.now.table_id`
/// - requires words: `base workers ≤ shared.now.table_id.words`
/// - requires phase: `R.threads seat.old.me.0 ≡ thread worker workers (R.lanes shared.now.key) Idle`
/// - requires worker: `worker < workers`
/// - ensures table: `seat.new.table_id ≡ seat.old.table_id`
/// - ensures searches: `result ≡ true → seat.new.me ≡ moved R.goes Searching seat.old.me`
/// - ensures other: `result ≡ false → seat.new.me ≡ seat.old.me`
pub fn claim<V, K, R: WakeRule<V, K>>(
    shared: &Shared<(), V, K, R>,
    workers: u32,
    seat: &mut Seat<(), V>,
    worker: u32,
) -> bool {
    let found = shared.fetch_or::<Claims<K, R>>(seat, word_of(worker) as usize, SEARCH);
    found & SEARCH == 0
}

/// Sets an idle worker's bit. It has to look at every lane then, before it may park.
///
/// # Clauses of the proved source
///
/// - requires table: `seat.old.table_id ≡ shared.now.table_id`
/// - requires words: `base workers ≤ shared.now.table_id.words`
/// - requires phase: `R.threads seat.old.me.0 ≡ thread worker workers (R.lanes shared.now.key) Idle`
/// - requires worker: `worker < workers`
/// - ensures table: `seat.new.table_id ≡ seat.old.table_id`
/// - ensures rests: `seat.new.me ≡ moved R.goes (resting (R.lanes shared.now.key) 0) seat.old.me`
pub fn rest<V, K, R: WakeRule<V, K>>(
    shared: &Shared<(), V, K, R>,
    workers: u32,
    seat: &mut Seat<(), V>,
    worker: u32,
) {
    let bit = 1 << bit_of(worker);
    shared.fetch_or::<Rests<K, R>>(seat, word_of(worker) as usize, bit);
}

/// Sets the searcher's own bit: it searches no more. It has to look at every lane then, before it
/// may park.
///
/// # Clauses of the proved source
///
/// - requires table: `seat.old.table_id ≡ shared.now.table_id`
/// - requires words: `base workers ≤ shared.now.table_id.words`
/// - requires phase: `R.threads seat.old.me.0 ≡ thread worker workers (R.lanes shared.now.key) Searching`
/// - requires worker: `worker < workers`
/// - ensures table: `seat.new.table_id ≡ seat.old.table_id`
/// - ensures rests: `seat.new.me ≡ moved R.goes (resting (R.lanes shared.now.key) 0) seat.old.me`
pub fn lie_down<V, K, R: WakeRule<V, K>>(
    shared: &Shared<(), V, K, R>,
    workers: u32,
    seat: &mut Seat<(), V>,
    worker: u32,
) {
    let bits = SEARCH | 1 << bit_of(worker);
    shared.fetch_xor::<Rests<K, R>>(seat, word_of(worker) as usize, bits);
}

/// Ends the search of a searcher that has work. It has to look at every lane then, whether more is
/// left.
///
/// # Clauses of the proved source
///
/// - requires table: `seat.old.table_id ≡ shared.now.table_id`
/// - requires words: `base workers ≤ shared.now.table_id.words`
/// - requires phase: `R.threads seat.old.me.0 ≡ thread worker workers (R.lanes shared.now.key) Found`
/// - requires worker: `worker < workers`
/// - ensures table: `seat.new.table_id ≡ seat.old.table_id`
/// - ensures looks: `seat.new.me ≡ moved R.goes (looking (R.lanes shared.now.key) 0) seat.old.me`
pub fn leave<V, K, R: WakeRule<V, K>>(
    shared: &Shared<(), V, K, R>,
    workers: u32,
    seat: &mut Seat<(), V>,
    worker: u32,
) {
    shared.fetch_and::<Leaves<K, R>>(seat, word_of(worker) as usize, !SEARCH);
}

/// Looks at a word of sleepers after a put, or after a look that found a job.
///
/// # Clauses of the proved source
///
/// - requires table: `seat.old.table_id ≡ shared.now.table_id`
/// - requires words: `base workers ≤ shared.now.table_id.words`
/// - requires phase: `IsIn (R.threads seat.old.me.0) workers (R.lanes shared.now.key) (Waking word)`
/// - requires word: `word < word_count workers`
/// - ensures table: `seat.new.table_id ≡ seat.old.table_id`
/// - ensures searched: `result ≡ Searched → seat.new.me ≡ moved R.goes Idle seat.old.me`
/// - ensures nobody: `result ≡ NobodySleeps → seat.new.me ≡ moved R.goes (waking (word_count workers) (word + 1)) seat.old.me`
/// - ensures sleeping: `(seen : ℕ) → result ≡ Sleeping seen → seat.new.me ≡ seat.old.me`
/// - ensures some: `(seen : ℕ) → result ≡ Sleeping seen → 0 < seen`
/// - ensures free: `(seen : ℕ) → result ≡ Sleeping seen → seen < SEARCH`
/// - ensures sleepers: `(seen t : ℕ) → result ≡ Sleeping seen → word_of t ≡ word → bit_at seen (bit_of t) ≡ 1 → t < workers`
pub fn notice<V, K, R: WakeRule<V, K>>(
    shared: &Shared<(), V, K, R>,
    workers: u32,
    seat: &mut Seat<(), V>,
    word: u64,
) -> Noticed {
    let found = shared.load::<Notices<K, R>>(seat, word as usize);
    if found >= SEARCH {
        return Noticed::Searched;
    }
    if found == 0 {
        return Noticed::NobodySleeps;
    }
    Noticed::Sleeping(found)
}

/// Tries once to clear the bit of a sleeper, whose word was `seen`. Returns whether it did. The
/// sleeper is the searcher of its word then, and is to be given its token.
///
/// # Clauses of the proved source
///
/// - requires table: `seat.old.table_id ≡ shared.now.table_id`
/// - requires words: `base workers ≤ shared.now.table_id.words`
/// - requires phase: `IsIn (R.threads seat.old.me.0) workers (R.lanes shared.now.key) (Waking (word_of sleeper))`
/// - requires sleeper: `sleeper < workers`
/// - requires free: `seen < SEARCH`
/// - requires sleeps: `bit_at seen (bit_of sleeper) ≡ 1`
/// - ensures table: `seat.new.table_id ≡ seat.old.table_id`
/// - ensures woken: `result ≡ true → seat.new.me ≡ moved R.goes (Giving sleeper) seat.old.me`
/// - ensures not: `result ≡ false → seat.new.me ≡ seat.old.me`
pub fn wake<V, K, R: WakeRule<V, K>>(
    shared: &Shared<(), V, K, R>,
    workers: u32,
    seat: &mut Seat<(), V>,
    seen: u64,
    sleeper: u32,
) -> bool {
    let bit = 1 << bit_of(sleeper);
    let new = seen & !bit | SEARCH;
    let word = word_of(sleeper) as usize;
    let found = shared.compare_exchange::<Wakes<K, R>>(seat, word, seen, new);
    found == seen
}

/// Gives a thread its token. The caller unparks that thread then.
///
/// # Clauses of the proved source
///
/// - requires table: `seat.old.table_id ≡ shared.now.table_id`
/// - requires words: `base workers ≤ shared.now.table_id.words`
/// - requires phase: `IsIn (R.threads seat.old.me.0) workers (R.lanes shared.now.key) (Giving to)`
/// - requires to: `to < workers`
/// - ensures table: `seat.new.table_id ≡ seat.old.table_id`
/// - ensures idle: `seat.new.me ≡ noting R.noted (Gave to) (moved R.goes Idle seat.old.me)`
pub fn give<V, K, R: WakeRule<V, K>>(
    shared: &Shared<(), V, K, R>,
    workers: u32,
    seat: &mut Seat<(), V>,
    to: u32,
) {
    shared.store::<Gives<K, R>>(seat, token_at(workers, to) as usize, 1);
}

/// Looks at the word of a worker that has seen a job after its rest. If another searches, or has
/// woken it, the worker goes on to its mailbox. Returns the word else.
///
/// # Clauses of the proved source
///
/// - requires table: `seat.old.table_id ≡ shared.now.table_id`
/// - requires words: `base workers ≤ shared.now.table_id.words`
/// - requires phase: `R.threads seat.old.me.0 ≡ thread worker workers (R.lanes shared.now.key) Returning`
/// - requires worker: `worker < workers`
/// - ensures table: `seat.new.table_id ≡ seat.old.table_id`
/// - ensures stays: `result ≡ None → seat.new.me ≡ moved R.goes Reading seat.old.me`
/// - ensures free: `IfSome result (λ seen. seen < SEARCH)`
/// - ensures sleeps: `IfSome result (λ seen. bit_at seen (bit_of worker) ≡ 1)`
/// - ensures same: `IfSome result (λ _. seat.new.me ≡ seat.old.me)`
pub fn stay<V, K, R: WakeRule<V, K>>(
    shared: &Shared<(), V, K, R>,
    workers: u32,
    seat: &mut Seat<(), V>,
    worker: u32,
) -> Option<u64> {
    let found = shared.load::<Stays<K, R>>(seat, word_of(worker) as usize);
    if found >= SEARCH {
        return None;
    }
    if !has_bit(found, worker) {
        return None;
    }
    Some(found)
}

/// Tries once to take back the bit of a worker that has seen a job, whose word was `seen`. Returns
/// whether it did. The worker is the searcher of its word then.
///
/// # Clauses of the proved source
///
/// - requires table: `seat.old.table_id ≡ shared.now.table_id`
/// - requires words: `base workers ≤ shared.now.table_id.words`
/// - requires phase: `R.threads seat.old.me.0 ≡ thread worker workers (R.lanes shared.now.key) Returning`
/// - requires worker: `worker < workers`
/// - requires free: `seen < SEARCH`
/// - ensures table: `seat.new.table_id ≡ seat.old.table_id`
/// - ensures searches: `result ≡ true → seat.new.me ≡ moved R.goes Searching seat.old.me`
/// - ensures not: `result ≡ false → seat.new.me ≡ seat.old.me`
pub fn come_back<V, K, R: WakeRule<V, K>>(
    shared: &Shared<(), V, K, R>,
    workers: u32,
    seat: &mut Seat<(), V>,
    worker: u32,
    seen: u64,
) -> bool {
    let bit = 1 << bit_of(worker);
    let new = seen & !bit | SEARCH;
    let word = word_of(worker) as usize;
    let found = shared.compare_exchange::<Returns<K, R>>(seat, word, seen, new);
    found == seen
}

/// Looks at the mailbox of a worker that has rested. Returns whether there is a call.
///
/// # Clauses of the proved source
///
/// - requires table: `seat.old.table_id ≡ shared.now.table_id`
/// - requires words: `base workers ≤ shared.now.table_id.words`
/// - requires phase: `R.threads seat.old.me.0 ≡ thread worker workers (R.lanes shared.now.key) Reading`
/// - requires worker: `worker < workers`
/// - ensures table: `seat.new.table_id ≡ seat.old.table_id`
/// - ensures called: `result ≡ true → seat.new.me ≡ moved R.goes Called seat.old.me`
/// - ensures not: `result ≡ false → seat.new.me ≡ moved R.goes Checking seat.old.me`
pub fn read_mail<V, K, R: WakeRule<V, K>>(
    shared: &Shared<(), V, K, R>,
    workers: u32,
    seat: &mut Seat<(), V>,
    worker: u32,
) -> bool {
    shared.load::<Reads<K, R>>(seat, mail_at(workers, worker) as usize) == 1
}

/// Takes back the bit of a worker that has a call. Returns whether it was set. The worker takes its
/// call next then (`take_call`). If not, it is the searcher of its word.
///
/// # Clauses of the proved source
///
/// - requires table: `seat.old.table_id ≡ shared.now.table_id`
/// - requires words: `base workers ≤ shared.now.table_id.words`
/// - requires phase: `R.threads seat.old.me.0 ≡ thread worker workers (R.lanes shared.now.key) Called`
/// - requires worker: `worker < workers`
/// - ensures table: `seat.new.table_id ≡ seat.old.table_id`
/// - ensures idle: `result ≡ true → seat.new.me ≡ noting R.noted RoseForCall (moved R.goes Idle seat.old.me)`
/// - ensures found: `result ≡ false → seat.new.me ≡ moved R.goes Found seat.old.me`
pub fn rise<V, K, R: WakeRule<V, K>>(
    shared: &Shared<(), V, K, R>,
    workers: u32,
    seat: &mut Seat<(), V>,
    worker: u32,
) -> bool {
    let bit = 1 << bit_of(worker);
    let found = shared.fetch_and::<Rises<K, R>>(seat, word_of(worker) as usize, !bit);
    has_bit(found, worker)
}

/// Looks at the bit of a worker that has rested. Returns whether it is set, so that the worker may
/// park. If not, the worker is the searcher of its word.
///
/// # Clauses of the proved source
///
/// - requires table: `seat.old.table_id ≡ shared.now.table_id`
/// - requires words: `base workers ≤ shared.now.table_id.words`
/// - requires phase: `R.threads seat.old.me.0 ≡ thread worker workers (R.lanes shared.now.key) Checking`
/// - requires worker: `worker < workers`
/// - ensures table: `seat.new.table_id ≡ seat.old.table_id`
/// - ensures parked: `result ≡ true → seat.new.me ≡ moved R.goes Parked seat.old.me`
/// - ensures searches: `result ≡ false → seat.new.me ≡ moved R.goes Searching seat.old.me`
pub fn check<V, K, R: WakeRule<V, K>>(
    shared: &Shared<(), V, K, R>,
    workers: u32,
    seat: &mut Seat<(), V>,
    worker: u32,
) -> bool {
    let found = shared.load::<Checks<K, R>>(seat, word_of(worker) as usize);
    has_bit(found, worker)
}

/// Takes the token of a worker that may park. Returns whether there was one. If not, the worker may
/// park on the word of its token while that is 0.
///
/// # Clauses of the proved source
///
/// - requires table: `seat.old.table_id ≡ shared.now.table_id`
/// - requires words: `base workers ≤ shared.now.table_id.words`
/// - requires phase: `R.threads seat.old.me.0 ≡ thread worker workers (R.lanes shared.now.key) Parked`
/// - requires worker: `worker < workers`
/// - ensures table: `seat.new.table_id ≡ seat.old.table_id`
/// - ensures awake: `result ≡ true → seat.new.me ≡ moved R.goes Reading seat.old.me`
/// - ensures not: `result ≡ false → seat.new.me ≡ seat.old.me`
pub fn wait<V, K, R: WakeRule<V, K>>(
    shared: &Shared<(), V, K, R>,
    workers: u32,
    seat: &mut Seat<(), V>,
    worker: u32,
) -> bool {
    let token = token_at(workers, worker) as usize;
    shared.compare_exchange::<Waits<K, R>>(seat, token, 1, 0) == 1
}

/// Puts a call into the mailbox of a worker. The caller looks at that worker's bit then (`ring`).
///
/// # Clauses of the proved source
///
/// - requires table: `seat.old.table_id ≡ shared.now.table_id`
/// - requires words: `base workers ≤ shared.now.table_id.words`
/// - requires phase: `IsIn (R.threads seat.old.me.0) workers (R.lanes shared.now.key) Idle`
/// - requires to: `to < workers`
/// - ensures table: `seat.new.table_id ≡ seat.old.table_id`
/// - ensures calls: `seat.new.me ≡ moved R.goes (Calling to) seat.old.me`
pub fn call<V, K, R: WakeRule<V, K>>(
    shared: &Shared<(), V, K, R>,
    workers: u32,
    seat: &mut Seat<(), V>,
    to: u32,
) {
    shared.store::<Calls<K, R>>(seat, mail_at(workers, to) as usize, 1);
}

/// Looks at the bit of a worker that was called. Returns whether it sleeps, so that it is to be
/// given its token.
///
/// # Clauses of the proved source
///
/// - requires table: `seat.old.table_id ≡ shared.now.table_id`
/// - requires words: `base workers ≤ shared.now.table_id.words`
/// - requires phase: `IsIn (R.threads seat.old.me.0) workers (R.lanes shared.now.key) (Calling to)`
/// - requires to: `to < workers`
/// - ensures table: `seat.new.table_id ≡ seat.old.table_id`
/// - ensures sleeps: `result ≡ true → seat.new.me ≡ moved R.goes (Giving to) seat.old.me`
/// - ensures awake: `result ≡ false → seat.new.me ≡ moved R.goes Idle seat.old.me`
pub fn ring<V, K, R: WakeRule<V, K>>(
    shared: &Shared<(), V, K, R>,
    workers: u32,
    seat: &mut Seat<(), V>,
    to: u32,
) -> bool {
    let found = shared.load::<Rings<K, R>>(seat, word_of(to) as usize);
    has_bit(found, to)
}

/// Takes the call out of the mailbox of an idle worker.
///
/// # Clauses of the proved source
///
/// - requires table: `seat.old.table_id ≡ shared.now.table_id`
/// - requires words: `base workers ≤ shared.now.table_id.words`
/// - requires phase: `R.threads seat.old.me.0 ≡ thread worker workers (R.lanes shared.now.key) Idle`
/// - requires worker: `worker < workers`
/// - ensures table: `seat.new.table_id ≡ seat.old.table_id`
/// - ensures took: `seat.new.me ≡ noting R.noted TookCall seat.old.me`
pub fn take_call<V, K, R: WakeRule<V, K>>(
    shared: &Shared<(), V, K, R>,
    workers: u32,
    seat: &mut Seat<(), V>,
    worker: u32,
) {
    shared.store::<TakesCall<K, R>>(seat, mail_at(workers, worker) as usize, 0);
}

/// Takes the call out of the mailbox of the searcher, which has work then.
///
/// # Clauses of the proved source
///
/// - requires table: `seat.old.table_id ≡ shared.now.table_id`
/// - requires words: `base workers ≤ shared.now.table_id.words`
/// - requires phase: `R.threads seat.old.me.0 ≡ thread worker workers (R.lanes shared.now.key) Searching`
/// - requires worker: `worker < workers`
/// - ensures table: `seat.new.table_id ≡ seat.old.table_id`
/// - ensures found: `seat.new.me ≡ noting R.noted TookCall (moved R.goes Found seat.old.me)`
pub fn find_call<V, K, R: WakeRule<V, K>>(
    shared: &Shared<(), V, K, R>,
    workers: u32,
    seat: &mut Seat<(), V>,
    worker: u32,
) {
    shared.store::<FindsCall<K, R>>(seat, mail_at(workers, worker) as usize, 0);
}
