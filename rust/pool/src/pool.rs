//! The pool.

use crate::beds::Beds;
use crate::client::{Client, Producer};
use crate::current;
use crate::desk::Desk;
use crate::error::{ClientError, Reason, Refused};
use crate::gang::{self, Gang, Owners};
use crate::group::Group;
use crate::job::{Job, Work};
use crate::outside::Outside;
use crate::overflow::Overflow;
use crate::placer::Placer;
use crate::scope::{self, Scope};
use crate::seat::Seat;
use crate::shared::{next_number, GangWord, Looks, Shared, Wait};
use crate::spares::{Settings, Spares};
use crate::ticket::{Packet, Promise, Ticket};
use crate::util::{drop_quietly, Padded};
use cubejobs::lanes::{self, Lane, Lanes, Payload, Sizes, Worker, MAX_CAPACITY};
use cubejobs::regions::Machine;
use std::env;
use std::fmt;
use std::io;
use std::num::NonZero;
use std::panic::{catch_unwind, AssertUnwindSafe};
use std::sync::atomic::AtomicBool;
use std::sync::{Arc, Condvar, Mutex};
use std::thread;
use std::time::Duration;

/// The largest pool has `2^MAX_WORKERS_LOG2` workers.
///
/// ```
/// use cubejobs_pool::{Pool, MAX_WORKERS_LOG2};
///
/// assert!(Pool::builder().workers_log2(MAX_WORKERS_LOG2 + 1).build().is_err());
/// ```
pub const MAX_WORKERS_LOG2: u32 = 10;

/// The most lanes of each kind. See [`Builder::shared_lanes`] and [`Builder::client_lanes`].
///
/// ```
/// use cubejobs_pool::{Pool, MAX_LANES};
///
/// assert!(Pool::builder().client_lanes(MAX_LANES + 1).build().is_err());
/// ```
pub const MAX_LANES: u32 = 1024;

// Each worker has a lane. The others are that of the jobs that come back, that of the overflow,
// those that threads share, and those of clients.
const _: () = assert!((1 << MAX_WORKERS_LOG2) <= lanes::MAX_WORKERS);
const _: () = assert!(2 + (1 << MAX_WORKERS_LOG2) + 2 * MAX_LANES <= lanes::MAX_LANES);

/// The bytes of a thread's stack, unless the builder or the variable `RUST_MIN_STACK` says
/// otherwise.
const STACK_SIZE: usize = 2 << 20;

/// The most spare threads, unless [`Builder::max_threads`] says otherwise.
const MAX_THREADS: usize = 256;

/// How a member looks before it sleeps, unless [`Builder::looks`] says otherwise. A long look takes
/// more time than a wake.
const LOOKS: Looks = Looks { short: 30, long: Duration::from_micros(20) };

/// What a pool is to be. See [`Pool::builder`].
///
/// ```
/// let small = cubejobs_pool::Pool::builder().workers_log2(1).lane_capacity(8);
/// let (one, other) = (small.clone().build()?, small.build()?);
/// assert_eq!((one.workers(), other.workers()), (2, 2));
/// # Ok::<(), std::io::Error>(())
/// ```
#[derive(Clone, Debug)]
#[must_use = "a builder makes a pool by `build`"]
pub struct Builder {
    dim: u32,
    capacity: u64,
    shared_lanes: u32,
    client_lanes: u32,
    looks: Option<u32>,
    settings: Settings,
}

/// Threads for jobs that take one worker, or an aligned group of `2^k` workers.
///
/// If it is dropped, it is closed: see [`Pool::close`].
///
/// ```
/// let pool = cubejobs_pool::Pool::builder().workers_log2(2).build()?;
/// let gang = pool.submit(1, |group| group.all_reduce(group.rank(), |a, b| a + b)).unwrap();
/// assert_eq!((pool.spawn(|| 7).join().unwrap(), gang.join().unwrap()), (7, 1));
/// # Ok::<(), std::io::Error>(())
/// ```
pub struct Pool {
    shared: Arc<Shared>,
}

impl Builder {
    /// Sets the number of workers to `2^dim`. The dimension is at most [`MAX_WORKERS_LOG2`].
    /// Without this call the number is the largest power of two that is at most
    /// [`available_parallelism`](std::thread::available_parallelism).
    ///
    /// ```
    /// let pool = cubejobs_pool::Pool::builder().workers_log2(0).build()?;
    /// assert_eq!(pool.workers(), 1);
    /// # Ok::<(), std::io::Error>(())
    /// ```
    pub fn workers_log2(mut self, dim: u32) -> Self {
        self.dim = dim;
        self
    }

    /// Sets the number of jobs or gangs that each lane holds, from 1 to [`MAX_CAPACITY`]. It is
    /// `MAX_CAPACITY` without this call. Each worker has a lane, and each place in a lane takes 64
    /// bytes.
    ///
    /// ```
    /// let pool = cubejobs_pool::Pool::builder().lane_capacity(16).build()?;
    /// assert_eq!(pool.spawn(|| 7).join().unwrap(), 7);
    /// # Ok::<(), std::io::Error>(())
    /// ```
    pub fn lane_capacity(mut self, jobs: u64) -> Self {
        self.capacity = jobs;
        self
    }

    /// Sets the number of lanes that other threads share, for jobs and for gangs each. It is from 1
    /// to [`MAX_LANES`]. There are 4 without this call.
    ///
    /// ```
    /// let pool = cubejobs_pool::Pool::builder().shared_lanes(1).build()?;
    /// assert_eq!(pool.spawn(|| 7).join().unwrap(), 7);
    /// # Ok::<(), std::io::Error>(())
    /// ```
    pub fn shared_lanes(mut self, lanes: u32) -> Self {
        self.shared_lanes = lanes;
        self
    }

    /// Sets how many [`Client`]s there may be at once, at most [`MAX_LANES`]. Each has a lane for
    /// jobs and one for gangs. There are 4 without this call.
    ///
    /// ```
    /// let pool = cubejobs_pool::Pool::builder().client_lanes(0).build()?;
    /// assert!(pool.client().is_err());
    /// # Ok::<(), std::io::Error>(())
    /// ```
    pub fn client_lanes(mut self, lanes: u32) -> Self {
        self.client_lanes = lanes;
        self
    }

    /// Sets how often a member of a gang looks, before it sleeps until another member acts. A look
    /// takes some tens of nanoseconds. Without this call it looks 30 times. If the machine has a
    /// processor for each worker, it looks up to 20 microseconds while that pays.
    ///
    /// ```
    /// let pool = cubejobs_pool::Pool::builder().workers_log2(1).looks(300).build()?;
    /// let ranks = pool.run(1, |group| group.exchange(1 - group.rank(), group.rank()));
    /// assert_eq!(ranks, [1, 0]);
    /// # Ok::<(), std::io::Error>(())
    /// ```
    pub fn looks(mut self, looks: u32) -> Self {
        self.looks = Some(looks);
        self
    }

    /// Sets how many spare threads there may be besides the workers. There may be 256 without this
    /// call.
    ///
    /// A spare gets the worker of a job that waits. If there is none left, the job keeps its worker
    /// while it sleeps. Some spares may come in any case: for the last worker that is awake, and
    /// for one that a gang calls. Half of the number is for jobs that wait on a stack which is half
    /// used.
    ///
    /// ```
    /// use std::sync::Arc;
    ///
    /// let pool = Arc::new(cubejobs_pool::Pool::builder().max_threads(2).build()?);
    /// let inner = pool.clone();
    /// let job = pool.spawn(move || inner.spawn(|| 7).join().unwrap());
    /// assert_eq!(job.join().unwrap(), 7);
    /// # Ok::<(), std::io::Error>(())
    /// ```
    pub fn max_threads(mut self, spares: usize) -> Self {
        self.settings.max_threads = spares;
        self
    }

    /// Sets the size of the stack of each thread, in bytes. A job has at least half of it. Without
    /// this call it is 2 MiB, or the number in the environment variable `RUST_MIN_STACK`.
    ///
    /// ```
    /// let pool = cubejobs_pool::Pool::builder().stack_size(32 << 20).build()?;
    /// let length = pool.spawn(|| std::hint::black_box(&[7_u8; 4 << 20]).len());
    /// assert_eq!(length.join().unwrap(), 4 << 20);
    /// # Ok::<(), std::io::Error>(())
    /// ```
    pub fn stack_size(mut self, bytes: usize) -> Self {
        self.settings.stack_size = bytes;
        self
    }

    /// Sets the names of the threads. The call gets the number of a thread: workers begin with the
    /// numbers from 0 on, and spares have the numbers after them. Without this call the name of
    /// thread 0 is `gang-0`. If the call panics, the name is empty.
    ///
    /// ```
    /// let builder = cubejobs_pool::Pool::builder().workers_log2(0);
    /// let pool = builder.thread_name(|number| format!("mine-{number}")).build()?;
    /// let name = pool.spawn(|| std::thread::current().name().map(String::from));
    /// assert_eq!(name.join().unwrap().as_deref(), Some("mine-0"));
    /// # Ok::<(), std::io::Error>(())
    /// ```
    pub fn thread_name(mut self, name: impl Fn(usize) -> String + Send + Sync + 'static) -> Self {
        self.settings.name = Arc::new(name);
        self
    }

    /// Sets a call that each thread makes when it starts, with its number as in
    /// [`Builder::thread_name`]. A panic of the call is caught.
    ///
    /// ```
    /// use std::sync::atomic::{AtomicUsize, Ordering::SeqCst};
    ///
    /// static STARTED: AtomicUsize = AtomicUsize::new(0);
    /// let builder = cubejobs_pool::Pool::builder().workers_log2(1);
    /// builder.start_handler(|_| drop(STARTED.fetch_add(1, SeqCst))).build()?.close();
    /// assert_eq!(STARTED.load(SeqCst), 2);
    /// # Ok::<(), std::io::Error>(())
    /// ```
    pub fn start_handler(mut self, call: impl Fn(usize) + Send + Sync + 'static) -> Self {
        self.settings.start = Arc::new(call);
        self
    }

    /// Makes the pool, and starts its threads.
    ///
    /// # Errors
    ///
    /// The error is of the kind `InvalidInput` if a number is out of range, and `OutOfMemory` if
    /// memory runs out. Otherwise it is that of a thread that cannot be started. Then no thread is
    /// left.
    ///
    /// ```
    /// use cubejobs_pool::Pool;
    ///
    /// let pool = Pool::builder().workers_log2(3).lane_capacity(64).build()?;
    /// assert_eq!(pool.workers(), 8);
    /// let refused = Pool::builder().workers_log2(11).build();
    /// assert_eq!(refused.unwrap_err().kind(), std::io::ErrorKind::InvalidInput);
    /// # Ok::<(), std::io::Error>(())
    /// ```
    pub fn build(self) -> io::Result<Pool> {
        self.check()?;
        let size = 1 << self.dim;
        let common = self.shared_lanes + self.client_lanes;
        let first_own = 2 + common;
        let lane_count = first_own + size;
        let ones = self.open(lane_count, size)?;
        let gangs = self.open(common, 1)?;
        // Lanes and workers are dealt out in the order of their numbers.
        let returned = Overflow::new(lane(&ones)?, 0);
        let overflow = Overflow::new(lane(&ones)?, 1);
        let outside_ones = Outside::new(dealt(self.shared_lanes, || lane(&ones))?);
        let outside_gangs = Outside::new(dealt(self.shared_lanes, || lane(&gangs))?);
        let producers = (self.shared_lanes..common).map(|place| producer(&ones, &gangs, place));
        let producers = producers.collect::<io::Result<Vec<_>>>()?;
        let desks = (first_own..lane_count).map(|own| desk(&ones, own)).collect::<io::Result<Vec<_>>>()?;
        let machine = Machine::new(self.dim).map_err(|_| no_memory())?;
        let placer = Placer::new(machine, worker(&gangs)?, common);
        let looks = self.all_looks();
        let shared = Arc::new_cyclic(|me| Shared {
            me: me.clone(),
            number: next_number(),
            dim: self.dim,
            ones,
            gangs,
            outside_ones,
            outside_gangs,
            producers: Mutex::new(producers),
            returned,
            overflow,
            capacity: self.capacity as usize,
            lane_count,
            first_own,
            rooms: (0..common).map(|_| Padded::default()).collect(),
            gang_rooms: (0..common).map(|_| Padded::default()).collect(),
            beds: Beds::new(size as usize),
            seats: (0..size).map(|_| Seat::new(self.dim)).collect(),
            spares: Spares::new(size as usize, self.settings),
            placer: Mutex::new(placer),
            live: Padded::default(),
            guests: Mutex::new(0),
            guest_left: Condvar::new(),
            is_closed: AtomicBool::new(false),
            is_cancelled: AtomicBool::new(false),
            looks,
        });
        started(shared, desks)
    }

    fn all_looks(&self) -> Looks {
        let processors = thread::available_parallelism().map_or(1, NonZero::get);
        match self.looks {
            Some(looks) => Looks { short: looks, long: Duration::ZERO },
            None if 1 << self.dim <= processors => LOOKS,
            None => Looks { long: Duration::ZERO, ..LOOKS },
        }
    }

    fn open<P: Payload>(&self, lanes: u32, workers: u32) -> io::Result<Lanes<P>> {
        Lanes::new(Sizes { lanes, workers, capacity: self.capacity }).map_err(|_| no_memory())
    }

    fn check(&self) -> io::Result<()> {
        let ranges = [
            ("the dimension", u64::from(self.dim), 0..=u64::from(MAX_WORKERS_LOG2)),
            ("the capacity of a lane", self.capacity, 1..=MAX_CAPACITY),
            ("the number of shared lanes", u64::from(self.shared_lanes), 1..=u64::from(MAX_LANES)),
            ("the number of client lanes", u64::from(self.client_lanes), 0..=u64::from(MAX_LANES)),
        ];
        for (name, number, range) in ranges {
            if !range.contains(&number) {
                let (least, most) = (range.start(), range.end());
                let text = format!("{name} is {number}, and not from {least} to {most}");
                return Err(io::Error::new(io::ErrorKind::InvalidInput, text));
            }
        }
        Ok(())
    }
}

fn no_memory() -> io::Error {
    io::Error::new(io::ErrorKind::OutOfMemory, "out of memory")
}

fn lane<P: Payload>(lanes: &Lanes<P>) -> io::Result<Lane<P>> {
    lanes.lane().map_err(|_| no_memory())
}

fn worker<P: Payload>(lanes: &Lanes<P>) -> io::Result<Worker<P>> {
    lanes.worker().map_err(|_| no_memory())
}

/// Returns this number of handles that a call deals out.
fn dealt<T>(count: u32, mut deal: impl FnMut() -> io::Result<T>) -> io::Result<Vec<T>> {
    (0..count).map(|_| deal()).collect()
}

fn producer(ones: &Lanes<u64>, gangs: &Lanes<GangWord>, place: u32) -> io::Result<Producer> {
    Ok(Producer { place: place as usize, ones: lane(ones)?, gangs: lane(gangs)? })
}

fn desk(ones: &Lanes<u64>, own: u32) -> io::Result<Desk> {
    Ok(Desk::new(worker(ones)?, lane(ones)?, own))
}

/// Starts the first threads of a pool. If one cannot be started, the others end.
fn started(shared: Arc<Shared>, desks: Vec<Desk>) -> io::Result<Pool> {
    let pool = Pool { shared };
    pool.shared.list();
    for desk in desks {
        pool.shared.spares.start_worker(&pool.shared, desk)?;
    }
    Ok(pool)
}

/// Returns the size of a thread's stack if the builder sets none.
fn stack_size() -> usize {
    let set = env::var("RUST_MIN_STACK").ok().and_then(|bytes| bytes.parse().ok());
    set.unwrap_or(STACK_SIZE)
}

/// Returns the dimension of a pool if the builder sets none.
fn default_dim() -> u32 {
    let processors = thread::available_parallelism().map_or(1, NonZero::get);
    processors.ilog2().min(MAX_WORKERS_LOG2)
}

/// A one-worker job with a ticket.
pub(crate) struct One<F, T> {
    pub call: F,
    pub promise: Promise<T>,
}

impl<F: FnOnce() -> T + Send, T: Send> Work for One<F, T> {
    fn run(self) {
        let One { call, promise } = self;
        promise.begin();
        promise.keep(catch_unwind(AssertUnwindSafe(call)));
    }
}

/// A one-worker job without a ticket.
pub(crate) struct Detached<F>(pub F);

impl<F: FnOnce() + Send> Work for Detached<F> {
    fn run(self) {
        if let Err(payload) = catch_unwind(AssertUnwindSafe(self.0)) {
            drop_quietly(payload);
        }
    }
}

/// Submits a closure as a gang by a call.
pub(crate) fn submit_gang<F, T>(
    shared: &Shared,
    dim: u32,
    call: F,
    submit: impl FnOnce(Gang) -> Result<(), (Reason, GangWord)>,
) -> Result<Ticket<T>, Refused<F>>
where
    F: Fn(&Group<'_>) -> T + Send + Sync + 'static,
    T: Send + 'static,
{
    if dim > shared.dim {
        return Err(Refused { reason: Reason::TooWide, job: call });
    }
    let call = Arc::new(call);
    let weak = Arc::downgrade(&call);
    let packet = Packet::new(1 << dim, None);
    let (ours, ends) = (packet.clone(), packet.clone());
    let body = move |group: &Group<'_>| ours.keep(group.rank(), call(group));
    let end = move |panic| ends.end(panic);
    let owners = Owners { ticket: packet.address(), scope: 0 };
    match submit(Gang::new(dim, owners, Arc::new(body), Box::new(end))) {
        Ok(()) => Ok(Ticket { packet, pool: shared.number, job: None }),
        Err((reason, gang)) => Err(Refused { reason, job: gang::closure(gang, &weak) }),
    }
}

impl Pool {
    /// Returns what makes a pool.
    ///
    /// ```
    /// let pool = cubejobs_pool::Pool::builder().workers_log2(2).build()?;
    /// assert_eq!(pool.workers(), 4);
    /// # Ok::<(), std::io::Error>(())
    /// ```
    pub fn builder() -> Builder {
        let settings = Settings {
            max_threads: MAX_THREADS,
            stack_size: stack_size(),
            name: Arc::new(|number| format!("gang-{number}")),
            start: Arc::new(|_| ()),
        };
        let (capacity, dim) = (MAX_CAPACITY, default_dim());
        Builder { dim, capacity, shared_lanes: 4, client_lanes: 4, looks: None, settings }
    }

    /// Returns the number of workers.
    ///
    /// ```
    /// let pool = cubejobs_pool::Pool::builder().workers_log2(1).build()?;
    /// assert_eq!(pool.workers(), 2);
    /// # Ok::<(), std::io::Error>(())
    /// ```
    #[must_use]
    pub fn workers(&self) -> usize {
        self.shared.size()
    }

    /// Returns the dimension of the pool: it has `2^dim` workers.
    ///
    /// ```
    /// let pool = cubejobs_pool::Pool::builder().workers_log2(1).build()?;
    /// assert_eq!(pool.dim(), 1);
    /// # Ok::<(), std::io::Error>(())
    /// ```
    #[must_use]
    pub fn dim(&self) -> u32 {
        self.shared.dim
    }

    /// Runs `call` on one worker. If the lane is full, a thread that is no worker of a pool sleeps
    /// until there is room. A worker never waits here: its job goes to a queue without a limit.
    ///
    /// ```
    /// # let pool = cubejobs_pool::Pool::builder().workers_log2(2).build()?;
    /// let ticket = pool.spawn(|| 3 + 4);
    /// assert_eq!(ticket.join().unwrap(), 7);
    /// # Ok::<(), std::io::Error>(())
    /// ```
    ///
    /// What the closure borrows would have to outlive the program. [`Pool::scope`] has jobs that
    /// borrow.
    ///
    /// ```compile_fail,E0373
    /// # let pool = cubejobs_pool::Pool::builder().workers_log2(2).build().unwrap();
    /// let number = 5;
    /// pool.spawn(|| number + 1);
    /// ```
    #[allow(clippy::missing_panics_doc)] // a closed pool has no owner that could call this
    pub fn spawn<F, T>(&self, call: F) -> Ticket<T>
    where
        F: FnOnce() -> T + Send + 'static,
        T: Send + 'static,
    {
        let packet = Packet::new(1, None);
        let (job, awaited) = Job::awaited(One { call, promise: Promise::new(packet.clone()) });
        assert!(self.shared.submit_one(job).is_ok(), "{}", Reason::Closed);
        Ticket { packet, pool: self.shared.number, job: Some(awaited) }
    }

    /// Runs `call` on one worker, as [`Pool::spawn`] does. It never waits.
    ///
    /// # Errors
    ///
    /// The reason is `Full`. The closure comes back.
    ///
    /// ```
    /// # let pool = cubejobs_pool::Pool::builder().workers_log2(2).build()?;
    /// let ticket = pool.try_spawn(|| 3 + 4).unwrap();
    /// assert_eq!(ticket.join().unwrap(), 7);
    /// # Ok::<(), std::io::Error>(())
    /// ```
    pub fn try_spawn<F, T>(&self, call: F) -> Result<Ticket<T>, Refused<F>>
    where
        F: FnOnce() -> T + Send + 'static,
        T: Send + 'static,
    {
        let packet = Packet::new(1, None);
        let work = One { call, promise: Promise::new(packet.clone()) };
        match Job::pass_awaited(work, |job| self.shared.try_submit_one(job)) {
            Ok(job) => Ok(Ticket { packet, pool: self.shared.number, job: Some(job) }),
            Err((reason, One { call, .. })) => Err(Refused { reason, job: call }),
        }
    }

    /// Runs `call` on one worker, as [`Pool::spawn`] does, without a ticket. A panic ends the job
    /// alone.
    ///
    /// ```
    /// # let pool = cubejobs_pool::Pool::builder().workers_log2(2).build()?;
    /// let (sender, receiver) = std::sync::mpsc::channel();
    /// pool.detach(move || sender.send(7).unwrap());
    /// assert_eq!(receiver.recv(), Ok(7));
    /// # Ok::<(), std::io::Error>(())
    /// ```
    #[allow(clippy::missing_panics_doc)] // as for `spawn`
    pub fn detach<F: FnOnce() + Send + 'static>(&self, call: F) {
        assert!(self.shared.submit_one(Job::new(Detached(call))).is_ok(), "{}", Reason::Closed);
    }

    /// Runs `call` as a gang: on each worker of an aligned group of `2^dim`. The members talk by
    /// their [`Group`].
    ///
    /// The gang has its workers for itself. They come as their jobs end, and the first call to the
    /// others waits for those that are late. If the lane of gangs is full, a thread that is no
    /// worker of a pool sleeps until there is room.
    ///
    /// # Errors
    ///
    /// The reason is `TooWide`, or `Full` at a worker of any pool. The closure comes back.
    ///
    /// ```
    /// # let pool = cubejobs_pool::Pool::builder().workers_log2(2).build()?;
    /// let gang = pool.submit(2, |group| group.all_reduce(group.rank(), |a, b| a + b)).unwrap();
    /// assert_eq!(gang.join_all().unwrap(), [6, 6, 6, 6]);
    /// # Ok::<(), std::io::Error>(())
    /// ```
    pub fn submit<F, T>(&self, dim: u32, call: F) -> Result<Ticket<T>, Refused<F>>
    where
        F: Fn(&Group<'_>) -> T + Send + Sync + 'static,
        T: Send + 'static,
    {
        self.submit_gang(dim, call, Wait::Outside)
    }

    /// Runs `call` as a gang, as [`Pool::submit`] does. It never waits.
    ///
    /// # Errors
    ///
    /// The reason is the first of these that applies: `TooWide`, `Full`. The closure comes back.
    ///
    /// ```
    /// # let pool = cubejobs_pool::Pool::builder().workers_log2(2).build()?;
    /// let gang = pool.try_submit(1, |group| group.rank()).unwrap();
    /// assert_eq!(gang.join_all().unwrap(), [0, 1]);
    /// # Ok::<(), std::io::Error>(())
    /// ```
    pub fn try_submit<F, T>(&self, dim: u32, call: F) -> Result<Ticket<T>, Refused<F>>
    where
        F: Fn(&Group<'_>) -> T + Send + Sync + 'static,
        T: Send + 'static,
    {
        self.submit_gang(dim, call, Wait::Never)
    }

    fn submit_gang<F, T>(&self, dim: u32, call: F, wait: Wait) -> Result<Ticket<T>, Refused<F>>
    where
        F: Fn(&Group<'_>) -> T + Send + Sync + 'static,
        T: Send + 'static,
    {
        submit_gang(&self.shared, dim, call, |gang| self.shared.submit_gang(gang, wait))
    }

    /// Runs `call` as a gang, sleeps until it has ended, and returns the results of all members in
    /// the order of their ranks. The closure may borrow.
    ///
    /// # Panics
    ///
    /// Panics if the group is larger than the pool, and in a gang of this pool. If a member panics,
    /// that panic goes on here.
    ///
    /// ```
    /// # let pool = cubejobs_pool::Pool::builder().workers_log2(2).build()?;
    /// let words = ["a", "b"];
    /// assert_eq!(pool.run(1, |group| words[group.rank()]), ["a", "b"]);
    /// # Ok::<(), std::io::Error>(())
    /// ```
    ///
    /// The view of a group stays with its worker:
    ///
    /// ```compile_fail,E0277
    /// # let pool = cubejobs_pool::Pool::builder().workers_log2(2).build().unwrap();
    /// pool.run(1, |group| std::thread::scope(|threads| { threads.spawn(|| group.barrier()); }));
    /// ```
    ///
    /// What members exchange borrows nothing:
    ///
    /// ```compile_fail,E0597
    /// # let pool = cubejobs_pool::Pool::builder().workers_log2(2).build().unwrap();
    /// pool.run(1, |group| {
    ///     let here = group.rank();
    ///     let there: &usize = group.exchange(group.rank() ^ 1, &here);
    ///     *there
    /// });
    /// ```
    ///
    /// It can be sent to another thread:
    ///
    /// ```compile_fail,E0277
    /// # let pool = cubejobs_pool::Pool::builder().workers_log2(2).build().unwrap();
    /// pool.run(1, |group| { group.exchange(group.rank() ^ 1, std::rc::Rc::new(1)); });
    /// ```
    pub fn run<F, T>(&self, dim: u32, call: F) -> Vec<T>
    where
        F: Fn(&Group<'_>) -> T + Send + Sync,
        T: Send,
    {
        let result = self.scope(|scope| match scope.submit_gang(dim, &call, Wait::Always) {
            Ok(ticket) => ticket.join_all(),
            Err(refused) => panic!("{refused}"),
        });
        result.unwrap_or_else(|payload| std::panic::resume_unwind(payload))
    }

    /// Calls `call` with a [`Scope`], whose jobs may borrow what outlives this call. It returns
    /// after they have ended. A worker of this pool runs jobs of the scope meanwhile, and no
    /// others.
    ///
    /// # Panics
    ///
    /// Panics in a gang of this pool: the pool could stand still. If `call` panics, or a job whose
    /// ticket was not joined, that panic goes on here when all jobs have ended.
    ///
    /// ```
    /// # let pool = cubejobs_pool::Pool::builder().workers_log2(2).build()?;
    /// let mut squares = [1, 2, 3, 4];
    /// pool.scope(|scope| {
    ///     for number in &mut squares {
    ///         scope.detach(|| *number *= *number);
    ///     }
    /// });
    /// assert_eq!(squares, [1, 4, 9, 16]);
    /// # Ok::<(), std::io::Error>(())
    /// ```
    pub fn scope<'env, R>(&self, call: impl for<'scope> FnOnce(&'scope Scope<'scope, 'env>) -> R) -> R {
        scope::run(&self.shared, call)
    }

    /// Returns a client, which has lanes of its own.
    ///
    /// # Errors
    ///
    /// The error is `NoneLeft` if there are as many clients as the builder was asked for.
    ///
    /// ```
    /// use cubejobs_pool::{ClientError, Pool};
    ///
    /// let pool = Pool::builder().client_lanes(1).build()?;
    /// let mut client = pool.client().unwrap();
    /// assert_eq!(client.spawn(|| 7).unwrap().join().unwrap(), 7);
    /// assert_eq!(pool.client().unwrap_err(), ClientError::NoneLeft);
    /// # Ok::<(), std::io::Error>(())
    /// ```
    pub fn client(&self) -> Result<Client, ClientError> {
        Client::new(&self.shared)
    }

    /// Closes the pool: it accepts no job any more. Returns when all accepted jobs have ended, and
    /// all threads. A drop does the same.
    ///
    /// If one of the pool's own jobs drops the pool, it does not wait. The threads end on their
    /// own.
    ///
    /// ```
    /// # let pool = cubejobs_pool::Pool::builder().workers_log2(2).build()?;
    /// let ticket = pool.spawn(|| 7);
    /// pool.close();
    /// assert!(ticket.is_finished());
    /// # Ok::<(), std::io::Error>(())
    /// ```
    pub fn close(self) {
        drop(self);
    }

    /// Closes the pool, and drops the jobs that have not begun. Returns when the others have ended,
    /// and all threads.
    ///
    /// The ticket of a job that was dropped has the error [`Cancelled`](crate::Cancelled). A gang
    /// begins when it has its workers, even if some of them are late.
    ///
    /// ```
    /// # let pool = cubejobs_pool::Pool::builder().workers_log2(2).build()?;
    /// use cubejobs_pool::Cancelled;
    ///
    /// let tickets: Vec<_> = (0..100).map(|number| pool.spawn(move || number)).collect();
    /// pool.close_now();
    /// for (number, ticket) in tickets.into_iter().enumerate() {
    ///     match ticket.join() {
    ///         Ok(result) => assert_eq!(result, number),
    ///         Err(payload) => assert!(payload.is::<Cancelled>()),
    ///     }
    /// }
    /// # Ok::<(), std::io::Error>(())
    /// ```
    pub fn close_now(self) {
        self.shared.close(true);
    }
}

impl Drop for Pool {
    fn drop(&mut self) {
        self.shared.close(false);
        // The last owner may be a job of the pool. A worker cannot wait for itself.
        if current::runs_job_of(&self.shared) {
            return;
        }
        current::asleep(|| self.shared.wait_for_end());
    }
}

impl fmt::Debug for Pool {
    fn fmt(&self, f: &mut fmt::Formatter<'_>) -> fmt::Result {
        f.debug_struct("Pool").field("workers", &self.workers()).finish_non_exhaustive()
    }
}

#[cfg(test)]
mod tests {
    use super::Pool;
    use std::sync::mpsc::channel;
    use std::sync::Arc;
    use std::thread;

    /// A thread has submitted to a pool, and lives on. It keeps nothing of the pool.
    #[test]
    fn a_dropped_pool_is_freed() {
        let pool = Arc::new(Pool::builder().workers_log2(2).build().unwrap());
        let (ours, weak) = (pool.clone(), pool.shared.me.clone());
        let ((done, is_done), (end, until)) = (channel(), channel::<()>());
        let submitter = thread::spawn(move || {
            ours.spawn(|| 7).join().unwrap();
            ours.run(1, |group| group.barrier());
            drop((ours.client(), ours));
            done.send(()).unwrap();
            until.recv().is_ok()
        });
        is_done.recv().unwrap();
        assert!(weak.upgrade().is_some());
        drop(pool);
        assert!(weak.upgrade().is_none());
        drop(end);
        assert!(!submitter.join().unwrap());
    }
}
