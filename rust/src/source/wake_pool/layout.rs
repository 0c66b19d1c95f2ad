// Made from crates/wake_pool/src/layout.rt by checks/lib/erase.py. Change that file.

/// The number of workers whose bits are in one word.
pub const WORD_WORKERS: u32 = 63;

/// The bit of a word that says that one of its workers searches.
pub const SEARCH: u64 = 1 << 63;

/// Returns the number of words of sleepers.
///
/// # Clauses of the proved source
///
/// - ensures count: `result ≡ words.word_count workers`
pub fn word_count(workers: u32) -> u64 {
    (workers as u64 + WORD_WORKERS as u64 - 1) / WORD_WORKERS as u64
}

/// Returns the number of words of sleepers, tokens and mailboxes. It is the first word above them.
///
/// # Clauses of the proved source
///
/// - ensures base: `result ≡ words.base workers`
pub fn base(workers: u32) -> u64 {
    word_count(workers) + 2 * workers as u64
}

/// Returns the word of a worker's bit.
///
/// # Clauses of the proved source
///
/// - ensures word: `result ≡ words.word_of worker`
pub fn word_of(worker: u32) -> u64 {
    (worker / WORD_WORKERS) as u64
}

/// Returns which bit of its word is a worker's.
///
/// # Clauses of the proved source
///
/// - ensures bit: `result ≡ words.bit_of worker`
pub fn bit_of(worker: u32) -> u64 {
    (worker % WORD_WORKERS) as u64
}

/// Returns the word of a worker's token. It is 1 if the token lies ready, else 0.
///
/// # Clauses of the proved source
///
/// - ensures place: `result ≡ words.token_at workers worker`
pub fn token_at(workers: u32, worker: u32) -> u64 {
    word_count(workers) + 2 * worker as u64
}

/// Returns the word of a worker's mailbox. It is 1 if there is a call, else 0.
///
/// # Clauses of the proved source
///
/// - ensures place: `result ≡ words.mail_at workers worker`
pub fn mail_at(workers: u32, worker: u32) -> u64 {
    token_at(workers, worker) + 1
}

/// Returns whether the worker's bit is set in its word.
///
/// # Clauses of the proved source
///
/// - ensures set: `result ≡ true → bit_at word (words.bit_of worker) ≡ 1`
/// - ensures clear: `result ≡ false → bit_at word (words.bit_of worker) ≢ 1`
pub fn has_bit(word: u64, worker: u32) -> bool {
    (word >> bit_of(worker)) & 1 == 1
}
