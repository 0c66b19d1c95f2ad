//! The results of a job, and the thread that waits for them.
#![forbid(unsafe_code)]

use crate::current::{self, Wait};
use crate::error::Cancelled;
use crate::gang::Gang;
use crate::job::Awaited;
use crate::outside::thread_number;
use crate::scope::ScopeState;
use crate::util::{drop_quietly, lock, Payload};
use std::fmt;
use std::iter;
use std::sync::atomic::{fence, AtomicBool, AtomicUsize, Ordering::Relaxed, Ordering::SeqCst};
use std::sync::{Arc, Mutex, OnceLock};
use std::thread::{self, Thread};

/// A place for the result of each member, and for the first panic.
pub(crate) struct Packet<T> {
    // Most jobs have one result, which needs no allocation of its own.
    first: Mutex<Option<T>>,
    others: Vec<Mutex<Option<T>>>,
    panic: Mutex<Option<Payload>>,
    is_done: AtomicBool,
    /// The number of the thread that has begun the one-worker job.
    runner: AtomicUsize,
    waiter: OnceLock<Thread>,
    /// The scope of the job, which gets a panic that nobody takes.
    scope: Option<Arc<ScopeState>>,
}

impl<T> Packet<T> {
    pub fn new(size: usize, scope: Option<Arc<ScopeState>>) -> Arc<Self> {
        Arc::new(Packet {
            scope,
            first: Mutex::new(None),
            others: (1..size).map(|_| Mutex::new(None)).collect(),
            panic: Mutex::new(None),
            is_done: AtomicBool::new(false),
            runner: AtomicUsize::new(0),
            waiter: OnceLock::new(),
        })
    }

    fn slots(&self) -> impl Iterator<Item = &Mutex<Option<T>>> {
        iter::once(&self.first).chain(&self.others)
    }

    /// Keeps the result of the member of this rank.
    pub fn keep(&self, rank: usize, value: T) {
        let slot = if rank == 0 { &self.first } else { &self.others[rank - 1] };
        *lock(slot) = Some(value);
    }

    /// Says that the job has ended, and wakes the thread that waits.
    pub fn end(&self, panic: Option<Payload>) {
        *lock(&self.panic) = panic;
        self.is_done.store(true, SeqCst);
        // Either this sees the waiter, or the waiter sees that the job is done.
        fence(SeqCst);
        if let Some(thread) = self.waiter.get() {
            thread.unpark();
        }
    }

    pub fn is_done(&self) -> bool {
        self.is_done.load(SeqCst)
    }

    /// Takes the payload of the panic, if there is one.
    pub fn take_panic(&self) -> Option<Payload> {
        lock(&self.panic).take()
    }

    /// Sleeps until the job is done. A thread of its pool runs it if it has not begun.
    fn wait(&self, pool: usize, job: Option<&Awaited>) {
        if self.is_done() {
            return;
        }
        // What this thread has begun, and has not ended, waits for this call itself.
        assert!(self.runner.load(Relaxed) != thread_number(), "a job waits for its own end");
        current::wait(pool, &Joined { packet: self, job });
    }

    /// Returns a number that other packets do not have while this one lives.
    pub fn address(&self) -> usize {
        std::ptr::from_ref(self).addr()
    }

    fn take_first(&self) -> T {
        lock(&self.first).take().expect("the member of rank 0 has left its result")
    }

    fn take_all(&self) -> Vec<T> {
        self.slots().map(|slot| lock(slot).take().expect("each member has left its result")).collect()
    }
}

impl<T> Drop for Packet<T> {
    /// Drops what nobody took, one by one: two drops of one list that panic would end the process.
    fn drop(&mut self) {
        for slot in iter::once(&mut self.first).chain(&mut self.others) {
            drop_quietly(lock(slot).take());
        }
        match (self.take_panic(), &self.scope) {
            (Some(payload), Some(scope)) => scope.keep_panic(payload),
            (payload, _) => drop_quietly(payload),
        }
    }
}

/// A wait for a job, by its ticket. Gangs have no such job.
struct Joined<'a, T> {
    packet: &'a Packet<T>,
    job: Option<&'a Awaited>,
}

impl<T> Wait for Joined<'_, T> {
    fn is_over(&self) -> bool {
        self.packet.is_done()
    }

    fn next(&self) -> Option<Awaited> {
        self.job.filter(|job| !job.has_begun()).cloned()
    }

    fn put_back(&self, _: Awaited) {}

    fn register(&self) {
        let _ = self.packet.waiter.set(thread::current());
        // Either the end of the job sees the waiter, or the waiter sees that the job is done.
        fence(SeqCst);
    }

    fn has(&self, gang: &Gang) -> bool {
        gang.owners.ticket == self.packet.address()
    }
}

/// The end of a packet, whatever its results are.
pub(crate) trait Ends: Send + Sync {
    fn end(&self, panic: Option<Payload>);
}

impl<T: Send> Ends for Packet<T> {
    fn end(&self, panic: Option<Payload>) {
        Packet::end(self, panic);
    }
}

/// The duty of a one-worker job to end its packet. A drop ends it as cancelled.
pub(crate) struct Promise<T>(Arc<Packet<T>>);

impl<T> Promise<T> {
    pub fn new(packet: Arc<Packet<T>>) -> Self {
        Promise(packet)
    }

    /// Says that this thread has begun the job.
    pub fn begin(&self) {
        self.0.runner.store(thread_number(), Relaxed);
    }

    pub fn keep(self, result: thread::Result<T>) {
        let panic = match result {
            Ok(value) => {
                self.0.keep(0, value);
                None
            }
            Err(payload) => Some(payload),
        };
        self.0.end(panic);
    }
}

impl<T> Drop for Promise<T> {
    fn drop(&mut self) {
        if !self.0.is_done() {
            self.0.end(Some(Box::new(Cancelled)));
        }
    }
}

/// The way to the results of a job. If it is dropped, the job runs on, and its results and its
/// panic are lost.
///
/// ```
/// use cubejobs_pool::Pool;
///
/// let pool = Pool::builder().build()?;
/// let seven = pool.spawn(|| 3 + 4);
/// assert_eq!(seven.join().unwrap(), 7);
/// let panics = pool.spawn(|| -> u32 { std::panic::resume_unwind(Box::new("no")) });
/// assert_eq!(panics.join().unwrap_err().downcast_ref(), Some(&"no"));
/// # Ok::<(), std::io::Error>(())
/// ```
#[must_use = "without its ticket, a job's results and its panic are lost"]
pub struct Ticket<T> {
    pub(crate) packet: Arc<Packet<T>>,
    /// Which pool has the job.
    pub(crate) pool: usize,
    /// The job, unless it is a gang.
    pub(crate) job: Option<Awaited>,
}

impl<T> Ticket<T> {
    /// Returns whether the job has ended.
    ///
    /// ```
    /// # let pool = cubejobs_pool::Pool::builder().workers_log2(2).build()?;
    /// let ticket = pool.spawn(|| 7);
    /// while !ticket.is_finished() {
    ///     std::thread::yield_now();
    /// }
    /// assert_eq!(ticket.join().unwrap(), 7);
    /// # Ok::<(), std::io::Error>(())
    /// ```
    #[must_use]
    pub fn is_finished(&self) -> bool {
        self.packet.is_done()
    }

    /// Sleeps until the job has ended. Returns the result of the member of rank 0.
    ///
    /// A job that waits runs this one itself if it has not begun, and no other one. Otherwise
    /// another thread gets its worker meanwhile.
    ///
    /// # Errors
    ///
    /// The payload of the first panic, or [`Cancelled`](crate::Cancelled).
    ///
    /// # Panics
    ///
    /// Panics in a gang of the same pool, unless the job has ended: the pool could stand still.
    /// Panics if this is a call of the job itself, or of a job that runs on its stack.
    ///
    /// ```
    /// # let pool = cubejobs_pool::Pool::builder().workers_log2(2).build()?;
    /// let gang = pool.submit(1, |group| group.rank() + 7).unwrap();
    /// assert_eq!(gang.join().unwrap(), 7);
    /// # Ok::<(), std::io::Error>(())
    /// ```
    pub fn join(self) -> thread::Result<T> {
        self.packet.wait(self.pool, self.job.as_ref());
        match self.packet.take_panic() {
            Some(payload) => Err(payload),
            None => Ok(self.packet.take_first()),
        }
    }

    /// Sleeps until the job has ended, as [`Ticket::join`] does. Returns the results of all members
    /// in the order of their ranks.
    ///
    /// # Errors
    ///
    /// Those of [`Ticket::join`].
    ///
    /// ```
    /// # let pool = cubejobs_pool::Pool::builder().workers_log2(2).build()?;
    /// let ticket = pool.submit(1, |group| group.rank() * 10).unwrap();
    /// assert_eq!(ticket.join_all().unwrap(), [0, 10]);
    /// # Ok::<(), std::io::Error>(())
    /// ```
    pub fn join_all(self) -> thread::Result<Vec<T>> {
        self.packet.wait(self.pool, self.job.as_ref());
        match self.packet.take_panic() {
            Some(payload) => Err(payload),
            None => Ok(self.packet.take_all()),
        }
    }
}

impl<T> fmt::Debug for Ticket<T> {
    fn fmt(&self, f: &mut fmt::Formatter<'_>) -> fmt::Result {
        f.debug_struct("Ticket").field("is_finished", &self.is_finished()).finish_non_exhaustive()
    }
}
