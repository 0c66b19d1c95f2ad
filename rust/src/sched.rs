//! A scheduler for threads: which waiting job a thread runs next, and on which processors. Safe
//! Rust over the library `cubejobs_sched`.
//!
//! A machine of dimension `n` has the processors `0` to `2^n - 1`. Any thread submits jobs. A
//! thread that has a [`Worker`] asks for its next job, and sleeps until it gets one. The rules are
//! those of a planner: jobs start in the order of their classes, and of their arrival in a class. A
//! job may pass the first one if it does not delay it: for that one a block is reserved.
//!
//! ```
//! use cubejobs::sched::{Options, Request, Scheduler, Waiting};
//! use std::sync::atomic::{AtomicU32, Ordering::SeqCst};
//! use std::thread;
//!
//! let scheduler = Scheduler::<u32>::new(Options::new(4, 100, 2))?; // 100 jobs, and 2 workers
//! let sum = AtomicU32::new(0);
//! thread::scope(|scope| {
//!     for _ in 0..2 {
//!         scope.spawn(|| {
//!             let mut worker = scheduler.worker().expect("there are two");
//!             // Sleeps until there is a job that may start.
//!             while let Ok(job) = worker.next() {
//!                 assert_eq!(job.base() % 4, 0);
//!                 sum.fetch_add(*job, SeqCst);
//!             } // the job ends here
//!         });
//!     }
//!     for number in 1..=10 {
//!         scheduler.submit(number, Request::new(4)).expect("it is open");
//!     }
//!     scheduler.close(Waiting::Run);
//! });
//! assert_eq!(sum.into_inner(), 55);
//! # Ok::<(), cubejobs::sched::OpenError>(())
//! ```
//!
//! While a job runs, no other job has its processors. The scheduler starts no thread, and binds
//! none to a CPU. Threads share it by reference or in an `Arc`.
//!
//! # Workers
//!
//! A job starts only while a worker waits for one. Open as many workers as jobs may run at once,
//! and let their threads call [`Worker::next`].
//!
//! # Jobs that submit
//!
//! A submit sleeps while there is no place for its job. If each worker runs a job that submits, all
//! of them may sleep for ever. So let such a job call [`Scheduler::submit_timeout`].
//!
//! # What stops
//!
//! One call at a time reads or changes the scheduler, under a mutex. If the system stops its
//! thread, all other calls wait until it goes on. Jobs that run go on.
//!
//! # What a drop means
//!
//! - An [`Allocation`] drops its job, and then the job ends. It also ends if that drop panics.
//! - A [`Worker`] leaves. If its last allocation was forgotten, that job ends.
//! - A [`Scheduler`] drops the jobs that wait.

use crate::sched_ffi as ffi;
use crate::turns::{Frees, Limit, Sitter, Turns};
use crate::Region;
use alloc::boxed::Box;
use core::error::Error;
use core::fmt;
use core::num::NonZero;
use core::ops::{Deref, DerefMut, Range};
use core::time::Duration;
use std::time::Instant;

/// The largest dimension of a scheduler's machine, which has at most `2^MAX_DIM` processors.
pub const MAX_DIM: u32 = ffi::MAX_DIM;

/// The most jobs that may wait and run in a scheduler at once.
pub const MAX_JOBS: u32 = ffi::MAX_JOBS;

/// The most workers of a scheduler.
pub const MAX_WORKERS: u32 = ffi::MAX_WORKERS;

/// The number of classes of jobs. See [`Request::class`].
pub const CLASSES: u8 = ffi::CLASSES;

/// A scheduler, which keeps a `J` for each job that waits. See the [module](self).
pub struct Scheduler<J> {
    turns: Turns<J>,
    options: Options,
}

/// What a scheduler is opened for. See [`Scheduler::new`].
#[derive(Clone, Copy, Debug, PartialEq, Eq)]
#[non_exhaustive]
pub struct Options {
    /// The dimension of the machine, which has `2^dim` processors: at most [`MAX_DIM`].
    pub dim: u32,
    /// How many jobs may wait and run at once: from 1 to [`MAX_JOBS`].
    pub jobs: u32,
    /// See [`Options::patience`].
    pub patience: u32,
    /// How many workers may be out at once: from 1 to [`MAX_WORKERS`].
    pub workers: u32,
}

/// A job as it is submitted. See [`Scheduler::submit`].
#[derive(Clone, Copy, Debug, PartialEq, Eq)]
#[non_exhaustive]
pub struct Request {
    /// How many processors it needs: from 1 to those of the machine.
    pub processors: u32,
    /// How long it runs at most, if that is known. Zero counts as a nanosecond.
    pub estimate: Option<Duration>,
    /// Its class: below [`CLASSES`].
    pub class: u8,
}

/// The name of one job in a scheduler, which no other job of that scheduler ever gets. Another one
/// may refuse it, or take it for a job of its own. The order of tickets has no meaning.
#[derive(Clone, Copy, Debug, PartialEq, Eq, PartialOrd, Ord, Hash)]
pub struct Ticket(NonZero<u64>);

/// A worker of a scheduler. One thread has it at a time. A drop gives it back. See
/// [`Scheduler::worker`].
#[must_use = "a drop gives the worker back"]
pub struct Worker<'a, J> {
    scheduler: &'a Scheduler<J>,
    sitter: Sitter,
    has_job: bool,
}

/// A job that runs, with its processors. A drop ends it. If it is forgotten
/// ([`core::mem::forget`]), the next call of its worker ends the job, or its drop does. See
/// [`Worker::next`].
#[must_use = "the job ends at once if it is dropped"]
pub struct Allocation<'a, J> {
    // It is dropped first, while no other job has its processors.
    job: J,
    base: u64,
    processors: u32,
    ticket: Ticket,
    running: Running<'a, J>,
}

/// The right to end a job that runs. A drop ends it.
struct Running<'a, J> {
    scheduler: &'a Scheduler<J>,
    sitter: Sitter,
    has_job: &'a mut bool,
}

/// What a close does with the jobs that wait. See [`Scheduler::close`].
#[derive(Clone, Copy, Debug, PartialEq, Eq, Hash)]
pub enum Waiting {
    /// They still run.
    Run,
    /// They do not run, and [`Scheduler::rest`] gives them back.
    ComeBack,
}

/// Where a job is, and what is known of its time. See [`Scheduler::forecast`].
#[derive(Clone, Copy, Debug, PartialEq, Eq)]
pub enum Forecast {
    /// It was given to a worker, and has not ended.
    Runs {
        /// Its block.
        region: Region,
        /// Its estimated end, if that is known. It may have passed.
        end: Option<Instant>,
    },
    /// It waits, and this block is reserved for it.
    Reserved {
        /// The reserved block.
        region: Region,
        /// The latest estimated end of the jobs in the block, or a time that has passed if none is
        /// there. It is `None` if one of them has no known end.
        promise: Option<Instant>,
    },
    /// It waits, and no block is reserved for it.
    Waits,
}

/// What a scheduler has. See [`Scheduler::counts`].
#[derive(Clone, Copy, Debug, PartialEq, Eq)]
#[non_exhaustive]
pub struct Counts {
    /// How many jobs wait, also with a reservation.
    pub waiting: u32,
    /// How many jobs run.
    pub running: u32,
    /// How many processors are in the blocks of running jobs.
    pub held: u32,
    /// How many processors the running jobs asked for.
    pub asked: u32,
    /// How many processors are out of service.
    pub occupied: u32,
}

/// The reason why a scheduler was not opened. See [`Scheduler::new`].
#[derive(Clone, Copy, Debug, PartialEq, Eq)]
#[non_exhaustive]
pub enum OpenError {
    /// The dimension, the number of jobs or the number of workers is out of range.
    OutOfRange,
    /// Memory ran out.
    OutOfMemory,
}

/// A job that was not submitted, and why. See [`Scheduler::submit`].
#[derive(Clone, Copy, PartialEq, Eq)]
#[non_exhaustive]
pub struct Rejected<J> {
    /// The reason.
    pub reason: Reason,
    /// The job.
    pub job: J,
}

/// The reason why a job was not submitted. See [`Rejected`].
#[derive(Clone, Copy, Debug, PartialEq, Eq)]
#[non_exhaustive]
pub enum Reason {
    /// The job needs no processor, or more than the machine has. Or there is no such class.
    OutOfRange,
    /// The scheduler was closed.
    Closed,
    /// The scheduler has as many jobs as it may have.
    Full,
    /// The scheduler had as many jobs as it may have for all of the time.
    TimedOut,
}

/// The reason why a job was not taken back. See [`Scheduler::cancel`].
#[derive(Clone, Copy, Debug, PartialEq, Eq)]
#[non_exhaustive]
pub enum CancelError {
    /// The job is over.
    NoJob,
    /// The job runs.
    Runs,
}

/// The reason why a thread got no worker. See [`Scheduler::worker`].
#[derive(Clone, Copy, Debug, PartialEq, Eq)]
#[non_exhaustive]
pub enum WorkerError {
    /// Each worker is out.
    NoneLeft,
}

/// The reason why a worker has no job. See [`Worker::next`].
#[derive(Clone, Copy, Debug, PartialEq, Eq)]
#[non_exhaustive]
pub enum Ended {
    /// The scheduler was closed, and no job will start any more.
    Closed,
    /// No job may start now.
    NoJob,
    /// No job was started for the worker for all of the time.
    TimedOut,
    /// The worker was given back by [`Scheduler::lost`].
    Lost,
}

/// The reason why a worker was not given back: no worker of its number is out. See
/// [`Scheduler::lost`].
#[derive(Clone, Copy, Debug, PartialEq, Eq)]
pub struct NotOut;

/// The reason why a block stayed in service. See [`Scheduler::occupy`].
#[derive(Clone, Copy, Debug, PartialEq, Eq)]
#[non_exhaustive]
pub enum OccupyError {
    /// The machine has no such block.
    OutOfRange,
    /// A job has a part of the block, or a part is out of service.
    InUse,
}

/// The reason why a block did not return to service. See [`Scheduler::vacate`].
#[derive(Clone, Copy, Debug, PartialEq, Eq)]
#[non_exhaustive]
pub enum VacateError {
    /// The machine has no such block.
    OutOfRange,
    /// No call has taken exactly this block out of service.
    NotOccupied,
}

impl Options {
    /// Makes the options of a machine of dimension `dim`, for this many jobs and workers at once.
    /// The patience is 16.
    #[must_use]
    pub const fn new(dim: u32, jobs: u32, workers: u32) -> Self {
        Options { dim, jobs, patience: 16, workers }
    }

    /// Sets the patience. A block is reserved for the first job if its promise is known. If it is
    /// not, one is reserved once `patience * 2^dim` processors have passed the job.
    #[must_use]
    pub const fn patience(self, patience: u32) -> Self {
        Options { patience, ..self }
    }
}

impl Request {
    /// Makes a request for this many processors, in class 0 and without an estimate.
    #[must_use]
    pub const fn new(processors: u32) -> Self {
        Request { processors, estimate: None, class: 0 }
    }

    /// Sets how long the job runs at most.
    #[must_use]
    pub const fn estimate(self, estimate: Duration) -> Self {
        Request { estimate: Some(estimate), ..self }
    }

    /// Sets the class of the job: below [`CLASSES`]. Jobs of a lower class come first.
    #[must_use]
    pub const fn class(self, class: u8) -> Self {
        Request { class, ..self }
    }

    /// Returns the request as the library wants it. There 0 says that there is no estimate.
    fn asked(self) -> ffi::Request {
        let nanoseconds = |it: Duration| it.as_nanos().clamp(1, u128::from(ffi::NEVER - 1)) as u64;
        ffi::Request {
            payload: 0,
            estimate: self.estimate.map_or(0, nanoseconds),
            processors: self.processors,
            job_class: self.class.into(),
        }
    }
}

impl<J> Scheduler<J> {
    /// Opens a scheduler without jobs. It takes all its memory now.
    ///
    /// # Errors
    ///
    /// The first of these that applies: `OutOfRange`, `OutOfMemory`.
    ///
    /// ```
    /// use cubejobs::sched::{OpenError, Options, Scheduler};
    ///
    /// let scheduler = Scheduler::<u64>::new(Options::new(20, 1000, 64).patience(4))?;
    /// assert_eq!(scheduler.counts().waiting, 0);
    /// let refused = Scheduler::<u64>::new(Options::new(21, 1000, 64));
    /// assert_eq!(refused.err(), Some(OpenError::OutOfRange));
    /// # Ok::<(), OpenError>(())
    /// ```
    pub fn new(options: Options) -> Result<Self, OpenError> {
        let Options { dim, jobs, patience, workers } = options;
        match Turns::open(ffi::Options { dim, jobs, patience, workers }) {
            Ok(turns) => Ok(Scheduler { turns, options }),
            Err(ffi::OUT_OF_RANGE) => Err(OpenError::OutOfRange),
            Err(ffi::OUT_OF_MEMORY) => Err(OpenError::OutOfMemory),
            Err(code) => unreachable!("an open has no code {code}"),
        }
    }

    /// Sets a function that is called after each change by which a [`try_next`](Worker::try_next)
    /// or a [`try_submit`](Scheduler::try_submit) may have another result. It replaces the one
    /// before.
    ///
    /// It is for tasks that must not sleep. The thread that made the change calls it, after its
    /// turn. Several threads may do so at once, and drops of an [`Allocation`] do it. The function
    /// must not sleep or panic. It may make calls of the scheduler, which may call it again.
    ///
    /// One call may stand for several jobs. So let each idle worker call `try_next` until it
    /// returns `NoJob`. To miss no job, let the function count, read the count before a
    /// `try_next`, and sleep only if it is the same after.
    pub fn on_ready(&mut self, hook: impl Fn() + Send + Sync + 'static) {
        self.turns.hook = Some(Box::new(hook));
    }

    /// Returns what the scheduler was opened for.
    #[must_use]
    pub fn options(&self) -> Options {
        self.options
    }

    /// Submits a job, and sleeps while there is no place for it.
    ///
    /// # Errors
    ///
    /// Returns the job with the first of these that applies: `OutOfRange`, `Closed`.
    pub fn submit(&self, job: J, request: Request) -> Result<Ticket, Rejected<J>> {
        self.submit_by(job, request, Limit::Never)
    }

    /// Submits a job, and never sleeps for a place. It may wait for a moment for its turn.
    ///
    /// # Errors
    ///
    /// Returns the job with the first of these that applies: `OutOfRange`, `Closed`, `Full`.
    ///
    /// ```
    /// use cubejobs::sched::{Options, Reason, Request, Scheduler};
    ///
    /// let scheduler = Scheduler::new(Options::new(3, 1, 1))?;
    /// let rejected = scheduler.try_submit("nine", Request::new(9)).unwrap_err();
    /// assert_eq!((rejected.reason, rejected.job), (Reason::OutOfRange, "nine"));
    /// scheduler.try_submit("eight", Request::new(8).class(7))?;
    /// let rejected = scheduler.try_submit("one", Request::new(1)).unwrap_err();
    /// assert_eq!((rejected.reason, rejected.job), (Reason::Full, "one"));
    /// # Ok::<(), Box<dyn std::error::Error>>(())
    /// ```
    pub fn try_submit(&self, job: J, request: Request) -> Result<Ticket, Rejected<J>> {
        self.submit_by(job, request, Limit::Now)
    }

    /// Submits a job, and sleeps while there is no place for it, but no longer than `timeout`.
    ///
    /// # Errors
    ///
    /// Returns the job with the first of these that applies: `OutOfRange`, `Closed`, `TimedOut`.
    pub fn submit_timeout(&self, job: J, request: Request, timeout: Duration) -> Result<Ticket, Rejected<J>> {
        self.submit_by(job, request, Limit::after(timeout))
    }

    fn submit_by(&self, job: J, request: Request, limit: Limit) -> Result<Ticket, Rejected<J>> {
        let (code, job) = match self.turns.submit(job, request.asked(), limit) {
            Ok(ticket) => return Ok(Ticket::of(ticket)),
            Err(refused) => refused,
        };
        let reason = match code {
            ffi::OUT_OF_RANGE => Reason::OutOfRange,
            ffi::CLOSED => Reason::Closed,
            ffi::FULL if matches!(limit, Limit::Now) => Reason::Full,
            ffi::FULL => Reason::TimedOut,
            code => unreachable!("a submit has no code {code}"),
        };
        Err(Rejected { reason, job })
    }

    /// Takes a waiting job back.
    ///
    /// # Errors
    ///
    /// The first of these that applies: `NoJob` (it is over), `Runs`.
    pub fn cancel(&self, ticket: Ticket) -> Result<J, CancelError> {
        let cancelled =
            self.turns.take(Frees::Place, |inner, now| ffi::cancel(inner.handle(), ticket.0.get(), now));
        match cancelled {
            Ok((job, _)) => Ok(job),
            Err(ffi::NO_JOB) => Err(CancelError::NoJob),
            Err(ffi::WRONG_STATE) => Err(CancelError::Runs),
            Err(code) => unreachable!("a cancel has no code {code}"),
        }
    }

    /// Returns where a job is. Returns `None` if it is over.
    #[must_use]
    pub fn forecast(&self, ticket: Ticket) -> Option<Forecast> {
        let found = ffi::forecast(self.turns.lock().handle(), ticket.0.get());
        if found.code != ffi::DONE {
            return None;
        }
        let region = Region { base: found.base, dim: found.dim };
        let time = self.turns.instant(found.time);
        Some(match found.state {
            ffi::RUNS => Forecast::Runs { region, end: time },
            ffi::RESERVED => Forecast::Reserved { region, promise: time },
            ffi::WAITS => Forecast::Waits,
            state => unreachable!("a job has no state {state}"),
        })
    }

    /// Counts jobs and processors.
    #[must_use]
    pub fn counts(&self) -> Counts {
        let found = ffi::counts(self.turns.lock().handle());
        let ffi::Counts { waiting, running, held, asked, occupied, .. } = found;
        Counts { waiting: waiting as u32, running: running as u32, held, asked: asked as u32, occupied }
    }

    /// Takes a block out of service. A reservation of a part of it ends.
    ///
    /// # Errors
    ///
    /// The first of these that applies: `OutOfRange`, `InUse`.
    pub fn occupy(&self, region: Region) -> Result<(), OccupyError> {
        let Region { base, dim } = region;
        match self.turns.make(Frees::Nothing, |handle, now| ffi::occupy(handle, base, dim, now)).code {
            ffi::DONE => Ok(()),
            ffi::OUT_OF_RANGE => Err(OccupyError::OutOfRange),
            ffi::WRONG_STATE => Err(OccupyError::InUse),
            code => unreachable!("an occupy has no code {code}"),
        }
    }

    /// Puts exactly a block that was occupied back into service.
    ///
    /// # Errors
    ///
    /// The first of these that applies: `OutOfRange`, `NotOccupied`.
    pub fn vacate(&self, region: Region) -> Result<(), VacateError> {
        let Region { base, dim } = region;
        match self.turns.make(Frees::Nothing, |handle, now| ffi::vacate(handle, base, dim, now)).code {
            ffi::DONE => Ok(()),
            ffi::OUT_OF_RANGE => Err(VacateError::OutOfRange),
            ffi::WRONG_STATE => Err(VacateError::NotOccupied),
            code => unreachable!("a vacate has no code {code}"),
        }
    }

    /// Closes the scheduler: no job is submitted any more, and each submit that sleeps returns
    /// `Closed`. Jobs that run go on. Returns `false`, and does nothing, if it was closed before.
    #[allow(clippy::must_use_candidate)] // the answer is no use to some
    pub fn close(&self, waiting: Waiting) -> bool {
        let mode = waiting as u32;
        self.turns.make(Frees::All, |handle, now| ffi::close(handle, mode, now)).code == ffi::DONE
    }

    /// Returns one waiting job of a closed scheduler, in no order. Returns `None` if no job waits,
    /// or if the scheduler was not closed.
    ///
    /// ```
    /// use cubejobs::sched::{Options, Request, Scheduler, Waiting};
    ///
    /// let scheduler = Scheduler::new(Options::new(2, 8, 1))?;
    /// scheduler.submit("left", Request::new(4))?;
    /// assert_eq!(scheduler.rest(), None);
    /// scheduler.close(Waiting::ComeBack);
    /// assert_eq!((scheduler.rest(), scheduler.rest()), (Some("left"), None));
    /// # Ok::<(), Box<dyn std::error::Error>>(())
    /// ```
    #[must_use = "it is dropped otherwise"]
    pub fn rest(&self) -> Option<J> {
        self.turns.rest()
    }

    /// Returns a worker, for one thread.
    ///
    /// # Errors
    ///
    /// `NoneLeft`.
    pub fn worker(&self) -> Result<Worker<'_, J>, WorkerError> {
        match self.turns.sit() {
            Ok(sitter) => Ok(Worker { scheduler: self, sitter, has_job: false }),
            Err(ffi::FULL) => Err(WorkerError::NoneLeft),
            Err(code) => unreachable!("a worker has no code {code}"),
        }
    }

    /// Gives back the worker with this [number](Worker::number), if it was forgotten or its thread
    /// hangs. Its job ends. If a job was given to it that it has not seen, that one is returned.
    ///
    /// If the worker is still there, its calls return `Lost`. Its allocation still has the job, but
    /// the processors are those of other jobs.
    ///
    /// # Errors
    ///
    /// `NotOut`: no worker with this number is out.
    pub fn lost(&self, number: u32) -> Result<Option<J>, NotOut> {
        self.turns.lost(number).map_err(|_| NotOut)
    }
}

impl<J> Worker<'_, J> {
    /// Returns its number, for [`Scheduler::lost`]. No other worker has it at the same time.
    #[must_use]
    pub fn number(&self) -> u32 {
        self.sitter.number
    }

    /// Sleeps until there is a job for the worker.
    ///
    /// # Errors
    ///
    /// `Lost` or `Closed`. If jobs wait for a block that is out of service, one may still start
    /// after `Closed`, once the block is back.
    #[allow(clippy::should_implement_trait)] // an item borrows the worker
    pub fn next(&mut self) -> Result<Allocation<'_, J>, Ended> {
        self.next_by(Limit::Never)
    }

    /// Returns a job for the worker, and never sleeps for one. It may wait for a moment for its
    /// turn.
    ///
    /// # Errors
    ///
    /// The first of these that applies: `Lost`, `Closed`, `NoJob`.
    ///
    /// ```
    /// use cubejobs::sched::{Ended, Options, Request, Scheduler, Waiting};
    ///
    /// let scheduler = Scheduler::new(Options::new(3, 8, 1))?;
    /// let mut worker = scheduler.worker()?;
    /// assert_eq!(worker.try_next().err(), Some(Ended::NoJob));
    /// scheduler.submit("three", Request::new(3))?;
    /// let job = worker.try_next()?;
    /// assert_eq!((*job, job.range()), ("three", 0..3));
    /// assert_eq!(scheduler.counts().held, 4);
    /// assert_eq!(job.into_job(), "three");
    /// scheduler.close(Waiting::Run);
    /// assert_eq!(worker.try_next().err(), Some(Ended::Closed));
    /// # Ok::<(), Box<dyn std::error::Error>>(())
    /// ```
    pub fn try_next(&mut self) -> Result<Allocation<'_, J>, Ended> {
        self.next_by(Limit::Now)
    }

    /// Sleeps until there is a job for the worker, but no longer than `timeout`.
    ///
    /// # Errors
    ///
    /// The first of these that applies: `Lost`, `Closed`, `TimedOut`.
    pub fn next_timeout(&mut self, timeout: Duration) -> Result<Allocation<'_, J>, Ended> {
        self.next_by(Limit::after(timeout))
    }

    fn next_by(&mut self, limit: Limit) -> Result<Allocation<'_, J>, Ended> {
        let Worker { scheduler, sitter, has_job } = self;
        let (job, answer) = match scheduler.turns.next(*sitter, core::mem::take(has_job), limit) {
            Ok(found) => found,
            Err(ffi::CLOSED) => return Err(Ended::Closed),
            Err(ffi::WRONG_STATE) => return Err(Ended::Lost),
            Err(ffi::NO_JOB) if matches!(limit, Limit::Now) => return Err(Ended::NoJob),
            Err(ffi::NO_JOB) => return Err(Ended::TimedOut),
            Err(code) => unreachable!("a worker has no code {code}"),
        };
        *has_job = true;
        let ticket = Ticket::of(answer.ticket);
        let running = Running { scheduler, sitter: *sitter, has_job };
        Ok(Allocation { job, base: answer.base, processors: answer.processors, ticket, running })
    }
}

impl<J> Allocation<'_, J> {
    /// Returns the first of its processors.
    #[must_use]
    pub fn base(&self) -> u64 {
        self.base
    }

    /// Returns how many processors it has: those that it asked for.
    #[must_use]
    pub fn processors(&self) -> u32 {
        self.processors
    }

    /// Returns the numbers of its processors.
    #[must_use]
    pub fn range(&self) -> Range<u64> {
        self.base..self.base + u64::from(self.processors)
    }

    /// Returns its ticket.
    #[must_use]
    pub fn ticket(&self) -> Ticket {
        self.ticket
    }

    /// Returns what was submitted.
    #[must_use]
    pub fn job(&self) -> &J {
        &self.job
    }

    /// Returns what was submitted, to change it.
    #[must_use]
    pub fn job_mut(&mut self) -> &mut J {
        &mut self.job
    }

    /// Ends the job, and returns what was submitted.
    pub fn into_job(self) -> J {
        let Allocation { job, running, .. } = self;
        drop(running);
        job
    }
}

impl<J> Deref for Allocation<'_, J> {
    type Target = J;

    fn deref(&self) -> &J {
        &self.job
    }
}

impl<J> DerefMut for Allocation<'_, J> {
    fn deref_mut(&mut self) -> &mut J {
        &mut self.job
    }
}

impl<J> Drop for Running<'_, J> {
    fn drop(&mut self) {
        *self.has_job = false;
        self.scheduler.turns.done(self.sitter);
    }
}

impl<J> Drop for Worker<'_, J> {
    fn drop(&mut self) {
        self.scheduler.turns.leave(self.sitter, self.has_job);
    }
}

impl Ticket {
    fn of(word: u64) -> Self {
        Ticket(NonZero::new(word).expect("a ticket is never 0"))
    }
}

impl<J> Rejected<J> {
    /// Returns the job that was not submitted.
    pub fn into_job(self) -> J {
        self.job
    }
}

impl<J> fmt::Debug for Scheduler<J> {
    fn fmt(&self, f: &mut fmt::Formatter<'_>) -> fmt::Result {
        let mut shown = f.debug_struct("Scheduler");
        shown.field("options", &self.options).field("counts", &self.counts()).finish_non_exhaustive()
    }
}

impl<J> fmt::Debug for Worker<'_, J> {
    fn fmt(&self, f: &mut fmt::Formatter<'_>) -> fmt::Result {
        f.debug_struct("Worker").field("number", &self.number()).finish_non_exhaustive()
    }
}

impl<J> fmt::Debug for Allocation<'_, J> {
    fn fmt(&self, f: &mut fmt::Formatter<'_>) -> fmt::Result {
        let mut shown = f.debug_struct("Allocation");
        shown.field("ticket", &self.ticket).field("range", &self.range()).finish_non_exhaustive()
    }
}

impl<J> fmt::Debug for Rejected<J> {
    fn fmt(&self, f: &mut fmt::Formatter<'_>) -> fmt::Result {
        f.debug_struct("Rejected").field("reason", &self.reason).finish_non_exhaustive()
    }
}

impl fmt::Display for OpenError {
    fn fmt(&self, f: &mut fmt::Formatter<'_>) -> fmt::Result {
        f.write_str(match self {
            OpenError::OutOfRange => "the dimension, the jobs or the workers are out of range",
            OpenError::OutOfMemory => "out of memory",
        })
    }
}

impl<J> fmt::Display for Rejected<J> {
    fn fmt(&self, f: &mut fmt::Formatter<'_>) -> fmt::Result {
        self.reason.fmt(f)
    }
}

impl fmt::Display for Reason {
    fn fmt(&self, f: &mut fmt::Formatter<'_>) -> fmt::Result {
        f.write_str(match self {
            Reason::OutOfRange => "the number of processors or the class is out of range",
            Reason::Closed => "the scheduler was closed",
            Reason::Full => "the scheduler has as many jobs as it may have",
            Reason::TimedOut => "there was no place for the job for all of the time",
        })
    }
}

impl fmt::Display for CancelError {
    fn fmt(&self, f: &mut fmt::Formatter<'_>) -> fmt::Result {
        f.write_str(match self {
            CancelError::NoJob => "the job is over",
            CancelError::Runs => "the job runs",
        })
    }
}

impl fmt::Display for WorkerError {
    fn fmt(&self, f: &mut fmt::Formatter<'_>) -> fmt::Result {
        f.write_str(match self {
            WorkerError::NoneLeft => "all workers are out",
        })
    }
}

impl fmt::Display for Ended {
    fn fmt(&self, f: &mut fmt::Formatter<'_>) -> fmt::Result {
        f.write_str(match self {
            Ended::Closed => "no job will start any more",
            Ended::NoJob => "no job may start now",
            Ended::TimedOut => "no job was started for the worker for all of the time",
            Ended::Lost => "the worker was lost",
        })
    }
}

impl fmt::Display for NotOut {
    fn fmt(&self, f: &mut fmt::Formatter<'_>) -> fmt::Result {
        f.write_str("no worker with this number is out")
    }
}

impl fmt::Display for OccupyError {
    fn fmt(&self, f: &mut fmt::Formatter<'_>) -> fmt::Result {
        f.write_str(match self {
            OccupyError::OutOfRange => "the machine has no such block",
            OccupyError::InUse => "a part of the block is in use",
        })
    }
}

impl fmt::Display for VacateError {
    fn fmt(&self, f: &mut fmt::Formatter<'_>) -> fmt::Result {
        f.write_str(match self {
            VacateError::OutOfRange => "the machine has no such block",
            VacateError::NotOccupied => "no call has taken this block out of service",
        })
    }
}

impl Error for OpenError {}
impl<J> Error for Rejected<J> {}
impl Error for Reason {}
impl Error for CancelError {}
impl Error for WorkerError {}
impl Error for Ended {}
impl Error for NotOut {}
impl Error for OccupyError {}
impl Error for VacateError {}
