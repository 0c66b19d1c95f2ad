//! Jobs that borrow.

use crate::current::{self, Wait};
use crate::error::{Reason, Refused};
use crate::gang::{self, Body, Gang, Owners};
use crate::group::Group;
use crate::job::{Awaited, Job, Work};
use crate::outside::thread_number;
use crate::shared::{self, Shared};
use crate::ticket::{Ends, Packet, Promise, Ticket};
use crate::util::{drop_quietly, lock, Padded, Payload};
use std::collections::VecDeque;
use std::fmt;
use std::marker::PhantomData;
use std::mem;
use std::panic::{catch_unwind, resume_unwind, AssertUnwindSafe};
use std::sync::atomic::{AtomicBool, AtomicUsize, Ordering::SeqCst};
use std::sync::{Arc, Mutex, OnceLock};
use std::thread::{self, Thread};

/// The number of jobs in a part of a list. Each thread looks through a part after it has ended half
/// as many jobs. So about half of the jobs in lists have not begun, if lists are long.
const PART: usize = 256;

/// The jobs of a scope. The padding keeps what is written for each job apart from what others read.
/// An alignment would make each scope slower, since its allocation would be aligned too.
pub(crate) struct ScopeState {
    begun: AtomicUsize,
    /// The number of jobs that have ended at the owner's thread.
    ended_here: AtomicUsize,
    /// The jobs that have not begun, and others, if the owner may run them while it waits.
    list: Option<Mutex<List>>,
    _apart: [u64; 16],
    /// Whether the owner waits for the end.
    is_ending: AtomicBool,
    owner: Thread,
    owner_number: usize,
    /// The number of jobs that have ended at other threads than the owner's.
    ended: OnceLock<Vec<Padded<AtomicUsize>>>,
    workers: usize,
    panic: Mutex<Option<Payload>>,
}

/// Jobs that may be begun from here, in parts of which the last one is not full. The oldest job has
/// a place of its own, so that a scope of one job allocates no part.
#[derive(Default)]
struct List {
    oldest: Option<Awaited>,
    newest: Vec<Awaited>,
    others: VecDeque<Vec<Awaited>>,
}

impl List {
    fn push(&mut self, job: Awaited) {
        if self.oldest.is_none() && self.newest.is_empty() && self.others.is_empty() {
            self.oldest = Some(job);
            return;
        }
        self.newest.push(job);
        if self.newest.len() >= PART {
            self.others.push_back(mem::replace(&mut self.newest, Vec::with_capacity(PART)));
        }
    }

    /// Takes the newest job that has not begun.
    fn pop(&mut self) -> Option<Awaited> {
        loop {
            while let Some(job) = self.newest.pop() {
                if !job.has_begun() {
                    return Some(job);
                }
            }
            let Some(part) = self.others.pop_back() else { break };
            self.newest = part;
        }
        self.oldest.take().filter(|job| !job.has_begun())
    }
}

impl ScopeState {
    /// Makes the state of a scope of a pool. Its owner is this thread, which may be one of a pool.
    fn new(pool: &Shared) -> Arc<Self> {
        Arc::new(ScopeState {
            begun: AtomicUsize::new(0),
            list: current::is_worker().then(Mutex::default),
            _apart: [0; 16],
            is_ending: AtomicBool::new(false),
            owner: thread::current(),
            owner_number: thread_number(),
            ended_here: AtomicUsize::new(0),
            ended: OnceLock::new(),
            workers: pool.size(),
            panic: Mutex::new(None),
        })
    }

    /// Lists a job that has not begun, so that the owner can run it.
    fn list(&self, list: &Mutex<List>, job: Awaited) {
        lock(list).push(job);
        if self.is_ending.load(SeqCst) {
            self.owner.unpark();
        }
    }

    fn address(&self) -> usize {
        std::ptr::from_ref(self).addr()
    }

    fn is_over(&self) -> bool {
        // A job counts its children before its own end. So the sum, read first, is not too large.
        let others = self.ended.get().map_or(0, |all| all.iter().map(|it| it.load(SeqCst)).sum());
        let ended: usize = others + self.ended_here.load(SeqCst);
        ended == self.begun.load(SeqCst)
    }

    /// Drops the oldest listed jobs, if they have begun.
    fn look_through(&self, list: &Mutex<List>) {
        let Some(mut part) = lock(list).others.pop_front() else { return };
        part.retain(|job| !job.has_begun());
        if part.is_empty() {
            return;
        }
        let mut list = lock(list);
        part.into_iter().for_each(|job| list.push(job));
        drop(list);
        if self.is_ending.load(SeqCst) {
            self.owner.unpark();
        }
    }

    pub fn keep_panic(&self, payload: Payload) {
        let mut first = lock(&self.panic);
        if first.is_none() {
            *first = Some(payload);
            return;
        }
        drop(first);
        drop_quietly(payload);
    }

    /// Counts a job that has ended at this thread, whose number in a pool is this one.
    fn end(&self, number: usize) {
        if thread_number() == self.owner_number {
            self.ended_here.fetch_add(1, SeqCst);
            return;
        }
        let all = self.ended.get_or_init(|| (0..=self.workers).map(|_| Padded::default()).collect());
        all[number.min(self.workers)].fetch_add(1, SeqCst);
        if self.is_ending.load(SeqCst) && self.is_over() {
            self.owner.unpark();
        }
    }
}

impl Wait for ScopeState {
    fn is_over(&self) -> bool {
        ScopeState::is_over(self)
    }

    fn next(&self) -> Option<Awaited> {
        lock(self.list.as_ref()?).pop()
    }

    fn put_back(&self, job: Awaited) {
        if let Some(list) = &self.list {
            lock(list).push(job);
        }
    }

    fn register(&self) {
        self.is_ending.store(true, SeqCst);
    }

    fn has(&self, gang: &Gang) -> bool {
        gang.owners.scope == self.address()
    }
}

/// A job's claim on its scope, which lasts until the job is counted as ended. A job that was
/// refused drops it. No accepted job of a scope is dropped: the scope borrows the pool, so nobody
/// closes it.
struct Claim {
    state: *const ScopeState,
}

// SAFETY: a `ScopeState` may be shared by threads, and `share` says why it is there.
unsafe impl Send for Claim {}

impl Claim {
    fn new(state: &Arc<ScopeState>) -> Self {
        state.begun.fetch_add(1, SeqCst);
        Claim { state: Arc::as_ptr(state) }
    }

    /// Returns a share of the state.
    fn share(&self) -> Arc<ScopeState> {
        // SAFETY: the pointer is of `Arc::as_ptr`. The scope holds a share until all its jobs are
        // counted as ended, and this one is not.
        unsafe {
            Arc::increment_strong_count(self.state);
            Arc::from_raw(self.state)
        }
    }

    /// Counts the job as ended.
    fn end(self, panic: Option<Payload>) {
        self.count(panic);
        mem::forget(self);
    }

    /// Counts the job as ended. After that the scope may be gone, so the thread holds a share of
    /// the state. A worker keeps it for the next job, which is most often of the same scope.
    fn count(&self, panic: Option<Payload>) {
        let local = current::any();
        let kept = local.as_ref().and_then(|it| it.scope.take());
        let state = match kept {
            Some(state) if Arc::as_ptr(&state) == self.state => state,
            _ => self.share(),
        };
        if let Some(payload) = panic {
            state.keep_panic(payload);
        }
        // The list is beside what is written for each submit, so it is seldom read.
        if local.as_ref().is_some_and(|it| it.count_end() % (PART / 2) == 0) {
            if let Some(list) = &state.list {
                state.look_through(list);
            }
        }
        state.end(local.as_ref().map_or(usize::MAX, |it| it.number));
        if let Some(local) = local {
            local.scope.replace(Some(state));
        }
    }
}

impl Drop for Claim {
    fn drop(&mut self) {
        self.count(None);
    }
}

/// A one-worker job of a scope.
struct Scoped<F> {
    call: F,
    claim: Claim,
}

impl<F: FnOnce() + Send> Work for Scoped<F> {
    fn run(self) {
        let Scoped { call, claim } = self;
        claim.end(catch_unwind(AssertUnwindSafe(call)).err());
    }
}

/// A scope of a pool: its jobs may borrow what outlives the scope. See
/// [`Pool::scope`](crate::Pool::scope).
///
/// ```
/// # let pool = cubejobs_pool::Pool::builder().workers_log2(2).build()?;
/// use std::sync::atomic::{AtomicUsize, Ordering::SeqCst};
///
/// let leaves = AtomicUsize::new(0);
/// pool.scope(|scope| {
///     // A job may submit others.
///     scope.detach(|| {
///         for _ in 0..4 {
///             scope.detach(|| drop(leaves.fetch_add(1, SeqCst)));
///         }
///     });
/// });
/// assert_eq!(leaves.into_inner(), 4);
/// # Ok::<(), std::io::Error>(())
/// ```
pub struct Scope<'scope, 'env: 'scope> {
    pool: &'scope Arc<Shared>,
    state: Arc<ScopeState>,
    scope: PhantomData<&'scope mut &'scope ()>,
    env: PhantomData<&'env mut &'env ()>,
}

/// The way to the results of a job of a scope. If it is dropped, the job runs on, and its panic is
/// that of the scope. See [`Scope::spawn`].
///
/// ```
/// # let pool = cubejobs_pool::Pool::builder().workers_log2(2).build()?;
/// let word = String::from("abc");
/// let length = pool.scope(|scope| scope.spawn(|| word.len()).join().unwrap());
/// assert_eq!(length, 3);
/// # Ok::<(), std::io::Error>(())
/// ```
#[must_use = "without its ticket, a job's results are lost: `detach` makes none"]
pub struct ScopeTicket<'scope, T> {
    ticket: Ticket<T>,
    scope: PhantomData<&'scope mut &'scope ()>,
}

/// Runs `call` with a scope, and waits for the jobs of the scope. See
/// [`Pool::scope`](crate::Pool::scope).
pub(crate) fn run<'env, R>(
    pool: &Arc<Shared>,
    call: impl for<'scope> FnOnce(&'scope Scope<'scope, 'env>) -> R,
) -> R {
    let is_in_gang = current::of(pool).is_some_and(|it| it.in_gang.get());
    assert!(!is_in_gang, "a member of a gang opens a scope of its own pool: the pool could stand still");
    let state = ScopeState::new(pool);
    let scope = Scope { pool, state: state.clone(), scope: PhantomData, env: PhantomData };
    let result = catch_unwind(AssertUnwindSafe(|| call(&scope)));
    current::wait(pool.number, &*state);
    let panic = lock(&state.panic).take();
    match (result, panic) {
        (Err(payload), _) | (Ok(_), Some(payload)) => resume_unwind(payload),
        (Ok(result), None) => result,
    }
}

impl<'scope> Scope<'scope, '_> {
    /// Runs `call` on one worker. If the lane is full, a thread that is no worker of a pool sleeps
    /// until there is room. A worker never waits here. The panic of `call` is that of the scope.
    ///
    /// ```
    /// # let pool = cubejobs_pool::Pool::builder().workers_log2(2).build()?;
    /// let mut squares = [1, 2, 3, 4];
    /// pool.scope(|scope| {
    ///     for number in &mut squares {
    ///         scope.detach(|| *number *= *number);
    ///     }
    /// });
    /// assert_eq!(squares, [1, 4, 9, 16]);
    /// # Ok::<(), std::io::Error>(())
    /// ```
    pub fn detach<F: FnOnce() + Send + 'scope>(&'scope self, call: F) {
        let work = Scoped { call, claim: Claim::new(&self.state) };
        if let Some(list) = &self.state.list {
            // SAFETY: as below. The owners that come later find that the work has begun.
            let (job, awaited) = unsafe { Job::scoped_awaited(work) };
            self.state.list(list, awaited);
            return self.submit_one(job);
        }
        // SAFETY: what the work borrows outlives the scope, which returns only once the job is
        // counted as ended. Before that the closure is gone: by `Scoped::run`, or in the order of
        // the fields of a `Scoped` that is dropped.
        self.submit_one(unsafe { Job::scoped(work) });
    }

    fn submit_one(&self, job: Job) {
        if let Err(job) = self.pool.submit_one(job) {
            drop(job);
            panic!("{}", Reason::Closed);
        }
    }

    /// Runs `call` on one worker, as [`Scope::detach`] does, and returns the way to its result.
    ///
    /// ```
    /// # let pool = cubejobs_pool::Pool::builder().workers_log2(2).build()?;
    /// let words = ["a", "bc"];
    /// let lengths = pool.scope(|scope| {
    ///     let tickets = words.map(|word| scope.spawn(|| word.len()));
    ///     tickets.map(|ticket| ticket.join().unwrap())
    /// });
    /// assert_eq!(lengths, [1, 2]);
    /// # Ok::<(), std::io::Error>(())
    /// ```
    pub fn spawn<F, T>(&'scope self, call: F) -> ScopeTicket<'scope, T>
    where
        F: FnOnce() -> T + Send + 'scope,
        T: Send + 'scope,
    {
        let (packet, ours) = self.packets(1);
        let promise = Promise::new(ours);
        let call = move || {
            promise.begin();
            promise.keep(catch_unwind(AssertUnwindSafe(call)));
        };
        // SAFETY: as in `detach`.
        let (job, awaited) = unsafe { Job::scoped_awaited(Scoped { call, claim: Claim::new(&self.state) }) };
        if let Some(list) = &self.state.list {
            self.state.list(list, awaited.clone());
        }
        self.submit_one(job);
        self.ticket(packet, Some(awaited))
    }

    /// Runs `call` on each worker of an aligned group of `2^dim`, as
    /// [`Pool::submit`](crate::Pool::submit) does. Returns the way to its results.
    ///
    /// # Errors
    ///
    /// The reason is that of [`Pool::submit`](crate::Pool::submit). The closure comes back.
    ///
    /// ```
    /// # let pool = cubejobs_pool::Pool::builder().workers_log2(2).build()?;
    /// let words = ["a", "bc"];
    /// let lengths = pool.scope(|scope| {
    ///     let gang = scope.submit(1, |group| words[group.rank()].len()).unwrap();
    ///     gang.join_all().unwrap()
    /// });
    /// assert_eq!(lengths, [1, 2]);
    /// # Ok::<(), std::io::Error>(())
    /// ```
    pub fn submit<F, T>(&'scope self, dim: u32, call: F) -> Result<ScopeTicket<'scope, T>, Refused<F>>
    where
        F: Fn(&Group<'_>) -> T + Send + Sync + 'scope,
        T: Send + 'scope,
    {
        self.submit_gang(dim, call, shared::Wait::Outside)
    }

    /// Submits a gang as `submit` does. These threads wait for room.
    pub(crate) fn submit_gang<F, T>(
        &'scope self,
        dim: u32,
        call: F,
        wait: shared::Wait,
    ) -> Result<ScopeTicket<'scope, T>, Refused<F>>
    where
        F: Fn(&Group<'_>) -> T + Send + Sync + 'scope,
        T: Send + 'scope,
    {
        if dim > self.pool.dim {
            return Err(Refused { reason: Reason::TooWide, job: call });
        }
        let call = Arc::new(call);
        let weak = Arc::downgrade(&call);
        let (packet, ours) = self.packets(1 << dim);
        let body: Arc<dyn Fn(&Group<'_>) + Send + Sync + 'scope> =
            Arc::new(move |group: &Group<'_>| ours.keep(group.rank(), call(group)));
        let ends: Arc<dyn Ends + 'scope> = packet.clone();
        // SAFETY: only lifetimes change. What the two borrow outlives the scope, which returns only
        // once the gang is counted as ended. Before that, its last member drops the body, and the
        // end below drops the other.
        let (body, ends): (Body, Arc<dyn Ends>) = unsafe { mem::transmute((body, ends)) };
        let claim = Claim::new(&self.state);
        let end = move |panic| {
            ends.end(panic);
            drop(ends);
            claim.end(None);
        };
        let owners = Owners { ticket: packet.address(), scope: self.state.address() };
        match self.pool.submit_gang(Gang::new(dim, owners, body, Box::new(end)), wait) {
            Ok(()) => Ok(self.ticket(packet, None)),
            Err((reason, gang)) => Err(Refused { reason, job: gang::closure(gang, &weak) }),
        }
    }

    /// Returns two references to places for this number of results.
    fn packets<T>(&self, size: usize) -> (Arc<Packet<T>>, Arc<Packet<T>>) {
        let packet = Packet::new(size, Some(self.state.clone()));
        (packet.clone(), packet)
    }

    fn ticket<T>(&self, packet: Arc<Packet<T>>, job: Option<Awaited>) -> ScopeTicket<'scope, T> {
        ScopeTicket { ticket: Ticket { packet, pool: self.pool.number, job }, scope: PhantomData }
    }
}

impl<T> ScopeTicket<'_, T> {
    /// Returns whether the job has ended.
    ///
    /// ```
    /// # let pool = cubejobs_pool::Pool::builder().workers_log2(2).build()?;
    /// pool.scope(|scope| {
    ///     let ticket = scope.spawn(|| 7);
    ///     while !ticket.is_finished() {
    ///         std::thread::yield_now();
    ///     }
    /// });
    /// # Ok::<(), std::io::Error>(())
    /// ```
    #[must_use]
    pub fn is_finished(&self) -> bool {
        self.ticket.is_finished()
    }

    /// Sleeps until the job has ended, as [`Ticket::join`] does. A panic that this returns is not
    /// that of the scope.
    ///
    /// # Errors
    ///
    /// Those of [`Ticket::join`].
    ///
    /// ```
    /// # let pool = cubejobs_pool::Pool::builder().workers_log2(2).build()?;
    /// let both = pool.scope(|scope| {
    ///     let panics = scope.spawn(|| -> u8 { std::panic::resume_unwind(Box::new("no")) });
    ///     let seven = scope.spawn(|| 7);
    ///     (panics.join().is_err(), seven.join().unwrap())
    /// });
    /// assert_eq!(both, (true, 7));
    /// # Ok::<(), std::io::Error>(())
    /// ```
    pub fn join(self) -> thread::Result<T> {
        self.ticket.join()
    }

    /// Sleeps until the job has ended, as [`Ticket::join_all`] does. A panic that this returns is
    /// not that of the scope.
    ///
    /// # Errors
    ///
    /// Those of [`Ticket::join`].
    ///
    /// ```
    /// # let pool = cubejobs_pool::Pool::builder().workers_log2(2).build()?;
    /// let words = ["a", "b"];
    /// let both = pool.scope(|scope| {
    ///     let gang = scope.submit(1, |group| words[group.rank()]).unwrap();
    ///     gang.join_all().unwrap()
    /// });
    /// assert_eq!(both, words);
    /// # Ok::<(), std::io::Error>(())
    /// ```
    pub fn join_all(self) -> thread::Result<Vec<T>> {
        self.ticket.join_all()
    }
}

impl fmt::Debug for Scope<'_, '_> {
    fn fmt(&self, f: &mut fmt::Formatter<'_>) -> fmt::Result {
        f.debug_struct("Scope").finish_non_exhaustive()
    }
}

impl<T> fmt::Debug for ScopeTicket<'_, T> {
    fn fmt(&self, f: &mut fmt::Formatter<'_>) -> fmt::Result {
        f.debug_struct("ScopeTicket").field("is_finished", &self.is_finished()).finish_non_exhaustive()
    }
}
