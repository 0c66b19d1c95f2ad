// Made from crates/wake_pool/src/phase.rt by checks/lib/erase.py. Change that file.

/// What a thread does at the moment, and so which step it makes next.
#[derive(Clone, Copy, Debug, PartialEq, Eq, Hash)]
pub enum WakePhase {
    /// Runs code of its own, or a job. It may put a job, take one, call a thread or take a call.
    /// A worker may also become the searcher of its word, or rest.
    Idle,
    /// Has put or seen a job. It looks at this word next, and wakes a sleeper if none searches. Or
    /// it puts another job, and begins again at the first word.
    Waking { word: u64 },
    /// Has cleared the bit of this thread, or saw it set after a call. It gives its token next.
    Giving { to: u64 },
    /// Has put a call into the mailbox of this thread. It looks at its bit next.
    Calling { to: u64 },
    /// Is the searcher of its word. It takes a job, answers a call, or rests.
    Searching,
    /// Is the searcher and has work. It clears the searcher's bit next.
    Found,
    /// Was the searcher and has work. It looks at this lane next, whether more is left.
    Looking { lane: u64 },
    /// Has set its bit. It looks at this lane next, before it may park.
    Resting { lane: u64 },
    /// Has set its bit and then seen a job. It takes its bit back next, as the searcher.
    Returning,
    /// Has set its bit and looked at all lanes. It looks at its mailbox next.
    Reading,
    /// Has set its bit and then seen a call. It takes its bit back next, and does not search.
    Called,
    /// Has seen no call. It looks at its bit next.
    Checking,
    /// Parks until it has its token.
    Parked,
}
