// Made from crates/wake_pool/src/act.rt by checks/lib/erase.py. Change that file.

/// One atomic step of a thread. What its phase does not allow changes nothing.
#[derive(Clone, Copy, Debug, PartialEq, Eq, Hash)]
pub enum WakeAct {
    /// An idle or waking thread puts a job into a lane.
    Put { thread: u64, lane: u64 },
    /// An idle thread, or the searcher, takes a job from a lane.
    Take { thread: u64, lane: u64 },
    /// An idle thread puts a call into the mailbox of a thread.
    Call { thread: u64, to: u64 },
    /// An idle thread, or the searcher, takes the call out of its own mailbox.
    Answer { thread: u64 },
    /// An idle worker becomes the searcher of its word, if there is none.
    Claim { thread: u64 },
    /// An idle worker, or the searcher, sets its bit.
    Rest { thread: u64 },
    /// A thread that looks at a lane cannot exclude that there is a job.
    See { thread: u64 },
    /// A waking thread clears the bit of a sleeper and makes it the searcher of its word.
    Wake { thread: u64, sleeper: u64 },
    /// The next step of a thread in any other phase.
    Step { thread: u64 },
}
