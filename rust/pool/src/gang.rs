//! A gang: a closure that each worker of a block runs.

use crate::group::Group;
use crate::util::{drop_quietly, lock, Payload};
use cubejobs::regions::Held;
use std::panic::{catch_unwind, AssertUnwindSafe};
use std::sync::atomic::{AtomicBool, AtomicUsize, Ordering::SeqCst};
use std::sync::{Arc, Mutex, Weak};

pub(crate) type Body = Arc<dyn Fn(&Group<'_>) + Send + Sync>;

/// Returns the closure of a gang that was not accepted. A share of it would be in the way: if the
/// members ended first, the submitter would drop the closure.
pub(crate) fn closure<F>(gang: Box<Gang>, call: &Weak<F>) -> F {
    let call = call.upgrade().expect("the gang has its closure");
    drop(gang);
    Arc::into_inner(call).expect("no member has the closure")
}

/// Called once, when the gang has ended, with the first panic of a member.
pub(crate) type End = Box<dyn FnOnce(Option<Payload>) + Send>;

/// The payload by which a member is unwound because another one has panicked.
pub(crate) struct Freed;

/// What a gang is part of: its ticket, and a scope or 0. These are addresses that others do not
/// have meanwhile.
#[derive(Clone, Copy, Default)]
pub(crate) struct Owners {
    pub ticket: usize,
    pub scope: usize,
}

pub(crate) struct Gang {
    pub dim: u32,
    pub owners: Owners,
    /// The first worker of the block, once there is one.
    pub base: AtomicUsize,
    block: Mutex<Option<Held>>,
    // The last member that leaves takes the body out, so that what the closure owns is dropped
    // before anybody hears of the end.
    body: Mutex<Option<Body>>,
    end: Mutex<Option<End>>,
    panic: Mutex<Option<Payload>>,
    /// Whether a member has panicked.
    pub has_failed: AtomicBool,
    /// Whether each member waits for another one, for ever.
    pub is_stuck: AtomicBool,
    /// The number of members that have not ended.
    inside: AtomicUsize,
    /// The number of members that have left, and of those that sleep.
    pub left: AtomicUsize,
    pub asleep: AtomicUsize,
    /// How often a member has got up.
    pub rises: AtomicUsize,
}

impl Gang {
    pub fn new(dim: u32, owners: Owners, body: Body, end: End) -> Self {
        Gang {
            dim,
            owners,
            base: AtomicUsize::new(0),
            block: Mutex::new(None),
            body: Mutex::new(Some(body)),
            end: Mutex::new(Some(end)),
            panic: Mutex::new(None),
            has_failed: AtomicBool::new(false),
            is_stuck: AtomicBool::new(false),
            inside: AtomicUsize::new(1 << dim),
            left: AtomicUsize::new(0),
            asleep: AtomicUsize::new(0),
            rises: AtomicUsize::new(0),
        }
    }

    pub fn size(&self) -> usize {
        1 << self.dim
    }

    /// Gives the gang its block.
    pub fn place(&self, block: Held) {
        self.base.store(block.region().base as usize, SeqCst);
        *lock(&self.block) = Some(block);
    }

    /// Runs the closure as a member. A panic makes the gang one that has failed.
    pub fn run_member(&self, group: &Group<'_>) {
        let body = lock(&self.body).clone().expect("a gang has its body while members are inside");
        let result = catch_unwind(AssertUnwindSafe(|| body(group)));
        if let Err(payload) = result {
            self.keep_panic(payload);
            self.has_failed.store(true, SeqCst);
        }
    }

    /// Keeps the first panic of a member. Other payloads are dropped.
    fn keep_panic(&self, payload: Payload) {
        let mut first = lock(&self.panic);
        if first.is_none() && !payload.is::<Freed>() {
            *first = Some(payload);
            return;
        }
        drop(first);
        drop_quietly(payload);
    }

    /// Counts a member as gone. Returns whether it was the last one.
    pub fn go(&self) -> bool {
        self.inside.fetch_sub(1, SeqCst) == 1
    }

    /// Ends the gang, after its last member has gone: drops the closure and releases the block.
    /// Returns the call that says so to the thread that waits.
    pub fn finish(&self) -> impl FnOnce() {
        let body = lock(&self.body).take();
        let dropped = catch_unwind(AssertUnwindSafe(|| drop(body)));
        if let Err(payload) = dropped {
            self.keep_panic(payload);
        }
        drop(lock(&self.block).take());
        let panic = lock(&self.panic).take();
        let end = lock(&self.end).take().expect("a gang ends once");
        move || end(panic)
    }

    /// Ends a gang that has not begun, with this payload.
    pub fn cancel(&self, payload: Payload) {
        drop_quietly(lock(&self.body).take());
        let end = lock(&self.end).take().expect("a gang ends once");
        end(Some(payload));
    }
}
