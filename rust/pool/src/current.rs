//! The thread of a pool, and what it keeps for itself.
//!
//! A waiting job runs on its stack only what it waits for, if that has not begun. So each job on a
//! stack waits for the one above it, and stacks add no wait to those of the program. If there is
//! nothing to run, the thread leaves its worker to a spare thread and sleeps. It then goes on
//! without a worker: if it first needed one, all workers could be held by jobs that wait for this
//! one.

use crate::desk::{Desk, Next};
use crate::gang::Gang;
use crate::job::{Awaited, Job};
use crate::scope::ScopeState;
use crate::shared::{pool_of, Shared};
use crate::spares::{Given, Inbox, Left};
use cubejobs::lanes::SubmitError;
use std::cell::{Cell, RefCell};
use std::hint::black_box;
use std::rc::Rc;
use std::sync::atomic::Ordering::Relaxed;
use std::sync::Arc;
use std::thread;
use std::time::Duration;

/// How often a thread whose job waits lets others go on, before it leaves its worker.
const YIELDS: u32 = 16;

/// How long a thread sleeps before it tries again what the system has refused.
const PAUSE: Duration = Duration::from_millis(1);

thread_local! {
    static CURRENT: RefCell<Option<Rc<Local>>> = const { RefCell::new(None) };
}

/// What a job waits for.
pub(crate) trait Wait {
    fn is_over(&self) -> bool;

    /// Returns a job that is part of this and has not begun.
    fn next(&self) -> Option<Awaited>;

    /// Says that a job of `next` was not begun.
    fn put_back(&self, job: Awaited);

    /// Notes that this thread is to be unparked when the wait is over or has a part more. The
    /// thread looks again before it parks.
    fn register(&self);

    /// Returns whether a gang is part of this.
    fn has(&self, gang: &Gang) -> bool;
}

/// What the thread of a pool keeps for itself.
pub(crate) struct Local {
    pub shared: Arc<Shared>,
    /// The number of the thread in its pool.
    pub number: usize,
    inbox: Arc<Inbox>,
    /// The desk of the worker, if the thread has one.
    desk: RefCell<Option<Box<Desk>>>,
    pub in_gang: Cell<bool>,
    /// About where the stack of this thread begins.
    stack: usize,
    /// The numbers of other pools whose jobs are on this stack.
    hosts: RefCell<Vec<usize>>,
    /// How many jobs of scopes have ended here.
    ends: Cell<usize>,
    /// A share of the scope whose job was the last one.
    pub scope: RefCell<Option<Arc<ScopeState>>>,
}

/// What the thread of a worker has done.
#[derive(Clone, Copy, PartialEq, Eq)]
enum Step {
    Ran,
    NoWork,
    Ended,
}

/// Returns what this thread keeps as one of this pool, if it is one.
pub(crate) fn of(shared: &Shared) -> Option<Rc<Local>> {
    any().filter(|it| it.shared.number == shared.number)
}

/// Returns what this thread keeps as one of any pool, if it is one. A thread that ends is none.
pub(crate) fn any() -> Option<Rc<Local>> {
    CURRENT.try_with(|kept| kept.borrow().clone()).ok().flatten()
}

/// Returns whether this thread runs a job of a pool.
pub(crate) fn is_worker() -> bool {
    any().is_some()
}

/// Returns whether this thread runs a job of this pool.
pub(crate) fn runs_job_of(pool: &Shared) -> bool {
    any().is_some_and(|it| it.shared.number == pool.number || it.hosts.borrow().contains(&pool.number))
}

/// Waits for something of the pool with this number. A thread of any pool runs parts of it that
/// have not begun.
///
/// # Panics
///
/// Panics in a gang of the pool.
pub(crate) fn wait(pool: usize, wait: &dyn Wait) {
    match any() {
        Some(local) => local.wait(pool, wait),
        None => {
            wait.register();
            while !wait.is_over() {
                thread::park();
            }
        }
    }
}

/// Makes a call that waits. A thread of a pool leaves its worker meanwhile.
pub(crate) fn asleep<R>(call: impl FnOnce() -> R) -> R {
    let Some(local) = any() else { return call() };
    let mut kept = None;
    while local.has_desk() && !local.try_to_leave(&mut kept) {
        thread::sleep(PAUSE);
    }
    let result = call();
    local.resume(kept);
    result
}

/// Runs a thread of a pool, until the pool is closed and has no job.
pub(crate) fn work(shared: Arc<Shared>, inbox: Arc<Inbox>, number: usize) {
    inbox.settle();
    let local = Rc::new(Local {
        shared,
        number,
        inbox,
        desk: RefCell::new(None),
        in_gang: Cell::new(false),
        stack: stack_pointer(),
        hosts: RefCell::default(),
        ends: Cell::new(0),
        scope: RefCell::new(None),
    });
    CURRENT.set(Some(local.clone()));
    while let Some(given) = local.shared.spares.next(&local.shared, &local.inbox) {
        if local.work_with(given) == Step::Ended {
            break;
        }
    }
    CURRENT.set(None);
}

/// Returns an address on the stack of this thread.
fn stack_pointer() -> usize {
    let mark = 0_u8;
    std::ptr::from_ref(black_box(&mark)) as usize
}

impl Local {
    /// Works with what the thread was given, until it has no worker any more, or the pool is over.
    fn work_with(&self, given: Given) -> Step {
        if let Some(desk) = given.desk {
            self.sit_down(desk);
        }
        if let Some(job) = given.job {
            self.run(job.into_job());
        }
        while self.has_desk() {
            match self.step() {
                Step::Ran => {}
                Step::NoWork => self.sleep(),
                Step::Ended => {
                    self.shared.spares.end();
                    return Step::Ended;
                }
            }
        }
        Step::Ran
    }

    fn sit_down(&self, desk: Box<Desk>) {
        self.shared.beds.settle(desk.index);
        self.desk.replace(Some(desk));
    }

    fn has_desk(&self) -> bool {
        self.desk.borrow().is_some()
    }

    /// Makes a call with the desk, if the thread has one. The call runs no job.
    fn with_desk<R>(&self, call: impl FnOnce(&mut Desk, &Shared) -> R) -> Option<R> {
        self.desk.borrow_mut().as_mut().map(|desk| call(desk, &self.shared))
    }

    /// Returns whether a gang has called the worker of this thread.
    fn is_called(&self) -> bool {
        self.with_desk(|desk, shared| shared.seats[desk.index].is_called()).unwrap_or(false)
    }

    /// Runs a job, or this worker's part of a gang, if there is one.
    fn step(&self) -> Step {
        let is_called = self.is_called();
        if is_called && self.serve_or_run_one() {
            return Step::Ran;
        }
        match self.find() {
            Some(Next::Job(job)) => {
                self.run(job);
                Step::Ran
            }
            Some(Next::Park) if !is_called => Step::NoWork,
            Some(Next::End) => Step::Ended,
            _ => Step::Ran,
        }
    }

    /// Runs this worker's part of the gang that has called it, or a one-worker job whose turn it
    /// is. Returns whether it did: not if the worker was woken, and has to search for a job.
    fn serve_or_run_one(&self) -> bool {
        let take = |desk: &mut Desk, shared: &Shared| {
            let is_turn = std::mem::take(&mut desk.is_turn_of_one);
            if is_turn {
                desk.take_awake(shared)
            } else {
                None
            }
        };
        if let Some(job) = self.with_desk(take).flatten() {
            self.run(job);
            return true;
        }
        let is_up = self.with_desk(Desk::get_up).unwrap_or(false);
        if is_up {
            self.serve();
        }
        is_up
    }

    fn run(&self, job: Job) {
        self.with_desk(Desk::begins);
        self.shared.begin(job);
    }

    fn serve(&self) {
        let Some(index) = self.with_desk(|desk, _| desk.index) else { return };
        self.in_gang.set(true);
        self.shared.serve(index);
        self.in_gang.set(false);
        self.with_desk(|desk, _| {
            desk.is_turn_of_one = true;
            // A look lets other threads go on, and the next gang would wait for this worker.
            desk.looks = 0;
        });
    }

    /// Finds a job in the lanes. If there is none, has the worker look again, or lie down.
    ///
    /// A submit wakes a worker that lies down, which takes longer than many jobs. It may also take
    /// the processor from the thread that submits. So a worker looks some times before.
    fn find(&self) -> Option<Next> {
        let look = |desk: &mut Desk, shared: &Shared| {
            if desk.looks == 0 || desk.may_lie {
                return Some(desk.find_or_lie_down(shared));
            }
            desk.looks -= 1;
            desk.take_awake(shared).map(Next::Job)
        };
        let found = self.with_desk(look)?;
        if found.is_none() {
            self.idle(thread::yield_now);
        }
        found
    }

    /// Sleeps while the worker lies down, until it is woken or called.
    fn sleep(&self) {
        let is_awake = || self.with_desk(|desk, _| desk.is_awake()).unwrap_or(true);
        self.idle(|| {
            while !self.is_called() && !is_awake() {
                thread::park();
            }
        });
    }

    /// Makes a call during which the worker has no work.
    fn idle(&self, call: impl FnOnce()) {
        let Some(index) = self.with_desk(|desk, _| desk.index) else { return call() };
        let seat = &self.shared.seats[index];
        seat.is_idle.store(true, Relaxed);
        call();
        seat.is_idle.store(false, Relaxed);
    }

    /// Returns whether the next job is to go to the overflow.
    pub fn skips_lane(&self) -> bool {
        self.with_desk(Desk::skips_lane) == Some(true)
    }

    /// Submits a job to the lane of the worker, or to that of the overflow if the thread has none.
    /// Returns the worker that this has woken, or the job if the lane is full.
    pub fn try_submit(&self, job: Job) -> Result<Option<u32>, (SubmitError, Job)> {
        match &mut *self.desk.borrow_mut() {
            Some(desk) => desk.submit(&self.shared, job),
            None if self.shared.overflow.len() >= self.shared.capacity => Err((SubmitError::Full, job)),
            None => self.shared.overflow.push(job).map_err(|job| (SubmitError::Closed, job)),
        }
    }

    /// Counts the end of a job of a scope. Returns how many there were here before.
    pub fn count_end(&self) -> usize {
        self.ends.replace(self.ends.get().wrapping_add(1))
    }

    /// Waits until something of this pool is over. Runs parts of it that have not begun.
    fn wait(&self, pool: usize, wait: &dyn Wait) {
        let is_own = self.shared.number == pool;
        assert!(
            !(is_own && self.in_gang.get()),
            "a member of a gang waits for a job of its own pool: the pool could stand still"
        );
        let other = if is_own { None } else { pool_of(pool) };
        let host = if is_own { Some(&self.shared) } else { other.as_ref() };
        let (mut yields, mut kept, mut is_registered) = (0, None, false);
        while !wait.is_over() {
            // A job of another pool may hold a worker of its own pool, and none of this one.
            let may_run = is_own || !self.has_desk();
            if may_run && host.is_some_and(|host| self.run_part(host, wait, &mut kept)) {
                continue;
            }
            if self.has_desk() && yields < YIELDS {
                yields += 1;
                thread::yield_now();
            } else if !is_registered {
                is_registered = true;
                wait.register();
            } else if !self.has_desk() || !self.try_to_leave(&mut kept) {
                self.park(wait, kept);
            }
        }
        self.resume(kept);
    }

    /// Leaves the worker. Returns whether the thread has none any more.
    fn try_to_leave(&self, kept: &mut Option<usize>) -> bool {
        self.leave(None, kept);
        !self.has_desk()
    }

    /// Runs a part of what the job waits for. If less is left of this stack than half of one of the
    /// part's pool, has a spare run it. Returns whether this thread did.
    fn run_part(&self, host: &Shared, wait: &dyn Wait, kept: &mut Option<usize>) -> bool {
        let is_own = host.number == self.shared.number;
        let left = self.shared.spares.stack_size().saturating_sub(self.stack.abs_diff(stack_pointer()));
        let has_stack = left >= host.spares.stack_size() / 2;
        if is_own && has_stack && self.is_called_for(wait) && self.with_desk(Desk::get_up) == Some(true) {
            self.serve();
            return true;
        }
        let Some(job) = wait.next() else { return false };
        if has_stack {
            self.run_early(host, job);
            return true;
        }
        let refused = match is_own && self.has_desk() {
            true => self.leave(Some(job), kept),
            false => host.spares.pass_on(host, job).err(),
        };
        if let Some(job) = refused {
            wait.put_back(job);
        }
        false
    }

    /// Runs a job of this pool or of another one before it is taken from its lane.
    fn run_early(&self, host: &Shared, job: Awaited) {
        let is_own = host.number == self.shared.number;
        if !is_own || self.with_desk(Desk::begins_early).is_none() {
            host.overflow.count_early(1);
        }
        if is_own {
            return self.run(job.into_job());
        }
        // The job is none of the gang whose member waits for it.
        let in_gang = self.in_gang.take();
        self.hosts.borrow_mut().push(host.number);
        host.host(|| host.begin(job.into_job()));
        self.hosts.borrow_mut().pop();
        self.in_gang.set(in_gang);
    }

    /// Returns whether this thread's worker is a member of a gang that the job waits for.
    fn is_called_for(&self, wait: &dyn Wait) -> bool {
        let is_awaited =
            |desk: &mut Desk, shared: &Shared| shared.seats[desk.index].has_mail(|gang| wait.has(gang));
        self.is_called() && self.with_desk(is_awaited) == Some(true)
    }

    /// Leaves the worker, if the thread has one. A spare that gets it runs this job first. Returns
    /// the job if no spare does, and sets the number of a worker that is kept.
    fn leave(&self, job: Option<Awaited>, kept: &mut Option<usize>) -> Option<Awaited> {
        let Some(desk) = self.desk.take() else { return job };
        match self.shared.spares.leave(&self.shared, desk, job) {
            Left::Given => None,
            Left::Kept(index, job) => {
                *kept = Some(index);
                job
            }
            Left::Refused(given) => {
                self.desk.replace(given.desk);
                given.job
            }
        }
    }

    /// Sleeps until this thread is unparked, or for a while if the system has refused a thread.
    fn park(&self, wait: &dyn Wait, kept: Option<usize>) {
        if wait.is_over() {
            return;
        }
        if !self.has_desk() && !self.shared.spares.has_failed() {
            return thread::park();
        }
        thread::park_timeout(PAUSE);
        if let Some(index) = kept.filter(|index| self.shared.seats[*index].is_called()) {
            self.shared.spares.serve(&self.shared, index);
        }
    }

    /// Takes back a worker that was kept, unless another thread has it.
    fn resume(&self, kept: Option<usize>) {
        if let Some(desk) = kept.and_then(|index| self.shared.spares.get_back(&self.shared, index)) {
            self.sit_down(desk);
        }
    }
}
