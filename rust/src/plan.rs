//! A planner: which waiting job starts next, and in which block. Safe Rust over the library
//! `cubejobs_plan`.
//!
//! A machine of dimension `n` has the processors `0` to `2^n - 1`. You tell the planner what
//! happens: a job is submitted, is cancelled, or has ended. Then you ask [`Planner::next`] which
//! job starts. Jobs start in the order of their classes, and of their arrival in a class. A job may
//! pass the first one if it does not delay it: for that one a block is reserved (EASY backfill).
//!
//! ```
//! use cubejobs::plan::{Forecast, Options, Planner, Request};
//! use cubejobs::Region;
//!
//! let mut planner = Planner::new(Options::new(2, 100))?; // 4 processors, at most 100 jobs
//! let first = planner.submit(Request::new(2).estimate(10), "first")?;
//! let whole = planner.submit(Request::new(4).estimate(5), "whole")?;
//! let brief = planner.submit(Request::new(1).estimate(8), "brief")?;
//! let long = planner.submit(Request::new(1).estimate(20), "long")?;
//!
//! let start = planner.next(0)?.unwrap();
//! assert_eq!((start.ticket, start.range(), start.end), (first, 0..2, Some(10)));
//! // There is no room for the whole machine. It is reserved from 10 on, and `brief` ends before.
//! let start = planner.next(0)?.unwrap();
//! assert_eq!((start.ticket, start.range(), start.end), (brief, 2..3, Some(8)));
//! assert_eq!(planner.next(0)?, None);
//! let region = Region { base: 0, dim: 2 };
//! assert_eq!(planner.forecast(whole), Some(Forecast::Reserved { region, promise: Some(10) }));
//! assert_eq!(planner.forecast(long), Some(Forecast::Waits { before: 1 }));
//!
//! assert_eq!(planner.finish(first)?, "first");
//! assert_eq!(planner.next(7)?, None); // `long` would delay `whole`
//! assert_eq!(planner.finish(brief)?, "brief");
//! assert_eq!(planner.next(8)?.unwrap().ticket, whole);
//! assert_eq!(planner.job(long), Some(&"long"));
//! # Ok::<(), Box<dyn std::error::Error>>(())
//! ```
//!
//! # Time
//!
//! A time is a whole number in a unit of yours, and so is an estimate. The planner starts no
//! program, has no thread, and reads no clock. No job starts only because time passes, so you need
//! no timer.
//!
//! # The loop
//!
//! Call [`next`] after each [`submit`], [`cancel`], [`finish`], [`occupy`] and [`vacate`], with the
//! time at which it happened. Call it again until it returns `None`. Then the promise of a reserved
//! job never grows. If each job ends by its estimate, a reserved job starts by its promise.
//!
//! # Threads
//!
//! A planner makes one call at a time. It can be sent to another thread if its jobs can. Threads
//! share one in a mutex: calls by `&` use the library too, so it is not [`Sync`].
//!
//! [`next`]: Planner::next
//! [`submit`]: Planner::submit
//! [`cancel`]: Planner::cancel
//! [`finish`]: Planner::finish
//! [`occupy`]: Planner::occupy
//! [`vacate`]: Planner::vacate

use crate::plan_ffi::{self as ffi, Handle};
use crate::slab::Slab;
use crate::Region;
use core::cell::RefCell;
use core::error::Error;
use core::fmt;
use core::iter::FusedIterator;
use core::num::NonZero;
use core::ops::Range;

/// The largest dimension of a planner's machine, which has at most `2^MAX_DIM` processors.
pub const MAX_DIM: u32 = ffi::MAX_DIM;

/// The most jobs that may wait and run in a planner at once.
pub const MAX_JOBS: u32 = ffi::MAX_JOBS;

/// The number of classes of jobs. See [`Request::class`].
pub const CLASSES: u8 = ffi::CLASSES;

/// A planner, which keeps a `J` for each job that waits or runs. A drop drops all of them. See the
/// [module](self).
pub struct Planner<J> {
    // It is dropped first, so a drop of a job that panics leaves nothing open.
    handle: RefCell<Open>,
    jobs: Slab<J>,
    options: Options,
}

/// An open handle, or one that is not open yet. A drop closes it.
struct Open(Handle);

/// What a planner is opened for. See [`Planner::new`].
#[derive(Clone, Copy, Debug, PartialEq, Eq)]
#[non_exhaustive]
pub struct Options {
    /// The dimension of the machine, which has `2^dim` processors: at most [`MAX_DIM`].
    pub dim: u32,
    /// How many jobs may wait and run at once: from 1 to [`MAX_JOBS`].
    pub jobs: u32,
    /// See [`Options::patience`].
    pub patience: u32,
}

/// A job as it is submitted. See [`Planner::submit`].
#[derive(Clone, Copy, Debug, PartialEq, Eq)]
#[non_exhaustive]
pub struct Request {
    /// How many processors it needs: from 1 to those of the machine.
    pub processors: u32,
    /// How long it runs at most, if that is known.
    pub estimate: Option<NonZero<u64>>,
    /// Its class: below [`CLASSES`].
    pub class: u8,
}

/// The name of one job in a planner, which no other job of that planner ever gets. Another planner
/// may refuse it, or take it for a job of its own. The order of tickets has no meaning.
#[derive(Clone, Copy, Debug, PartialEq, Eq, PartialOrd, Ord, Hash)]
pub struct Ticket(NonZero<u64>);

/// A job that starts. See [`Planner::next`].
#[derive(Clone, Copy, Debug, PartialEq, Eq)]
#[non_exhaustive]
pub struct Start {
    /// The ticket of the job.
    pub ticket: Ticket,
    /// The first of its processors, and of its block.
    pub base: u64,
    /// How many processors it has: those that it asked for.
    pub processors: u32,
    /// The dimension of its block. No other job gets the rest of the block while it runs.
    pub dim: u32,
    /// Its estimated end, if that is known.
    pub end: Option<u64>,
}

/// Where a job is, and what is known of its time. See [`Planner::forecast`].
#[derive(Clone, Copy, Debug, PartialEq, Eq)]
pub enum Forecast {
    /// It runs.
    Runs {
        /// Its block.
        region: Region,
        /// Its estimated end, if that is known. It may have passed.
        end: Option<u64>,
    },
    /// It waits, and this block is reserved for it.
    Reserved {
        /// The reserved block.
        region: Region,
        /// The latest estimated end of the jobs in the block, or 0 if none is there. It is `None`
        /// if one of them has no known end.
        promise: Option<u64>,
    },
    /// It waits, and no block is reserved for it.
    Waits {
        /// How many waiting jobs come before it.
        before: u64,
    },
}

/// Where a job is. See [`Planner::jobs`].
#[derive(Clone, Copy, Debug, PartialEq, Eq, Hash)]
pub enum JobState {
    /// It waits, and no block is reserved for it.
    Waits,
    /// It waits, and a block is reserved for it.
    Reserved,
    /// It was started, and has not ended.
    Runs,
}

/// What a planner has. See [`Planner::counts`].
#[derive(Clone, Copy, Debug, PartialEq, Eq)]
#[non_exhaustive]
pub struct Counts {
    /// How many jobs wait, also with a reservation.
    pub waiting: u32,
    /// How many jobs run.
    pub running: u32,
    /// How many processors no other job can have since a job runs.
    pub held: u32,
    /// How many processors the running jobs asked for.
    pub asked: u32,
    /// How many processors are out of service.
    pub occupied: u32,
    /// The most processors that one job could get now, if no other waited.
    pub largest: u32,
}

/// The jobs of a planner, in no order: an iterator. See [`Planner::jobs`].
pub struct Jobs<'a, J> {
    planner: &'a Planner<J>,
    /// The ticket of the last job, or 0.
    last: u64,
}

/// The reason why a planner was not opened. See [`Planner::new`].
#[derive(Clone, Copy, Debug, PartialEq, Eq)]
#[non_exhaustive]
pub enum OpenError {
    /// The dimension is above [`MAX_DIM`], or the number of jobs is 0 or above [`MAX_JOBS`].
    OutOfRange,
    /// Memory ran out.
    OutOfMemory,
}

/// The error of a submit, with the job. See [`Planner::submit`].
#[derive(Clone, Copy, PartialEq, Eq)]
#[non_exhaustive]
pub struct SubmitError<J> {
    /// The reason.
    pub reason: SubmitReason,
    /// The job that was not submitted.
    pub job: J,
}

/// The reason of a refused submit. See [`Planner::submit`].
#[derive(Clone, Copy, Debug, PartialEq, Eq)]
#[non_exhaustive]
pub enum SubmitReason {
    /// The job needs no processor, or more than the machine has. Or there is no such class.
    OutOfRange,
    /// The planner has as many jobs as it may have.
    Full,
}

/// The reason why no job was looked for. See [`Planner::next`].
#[derive(Clone, Copy, Debug, PartialEq, Eq)]
#[non_exhaustive]
pub enum TimeError {
    /// The time is [`u64::MAX`].
    OutOfRange,
    /// The time is before that of the last call.
    Back,
}

/// The reason of a refused end. See [`Planner::cancel`] and [`Planner::finish`].
#[derive(Clone, Copy, Debug, PartialEq, Eq)]
#[non_exhaustive]
pub enum EndError {
    /// The job is over.
    NoJob,
    /// The job runs and was to be cancelled, or it waits and was to be finished.
    WrongState,
}

/// The reason why a block stayed in service. See [`Planner::occupy`].
#[derive(Clone, Copy, Debug, PartialEq, Eq)]
#[non_exhaustive]
pub enum OccupyError {
    /// The machine has no such block.
    OutOfRange,
    /// A job has a part of the block, or a part is out of service.
    InUse,
}

/// The reason why a block did not return to service. See [`Planner::vacate`].
#[derive(Clone, Copy, Debug, PartialEq, Eq)]
#[non_exhaustive]
pub enum VacateError {
    /// The machine has no such block.
    OutOfRange,
    /// No call has taken exactly this block out of service.
    NotOccupied,
}

impl Options {
    /// Makes the options of a machine of dimension `dim`, for this many jobs at once. The patience
    /// is 16.
    #[must_use]
    pub const fn new(dim: u32, jobs: u32) -> Self {
        Options { dim, jobs, patience: 16 }
    }

    /// Sets the patience. A block is reserved for the first job if its promise is known. If it is
    /// not, one is reserved once `patience * 2^dim` processors have passed the job.
    #[must_use]
    pub const fn patience(self, patience: u32) -> Self {
        Options { patience, ..self }
    }
}

impl Request {
    /// Makes a request for this many processors, in class 0 and without an estimate.
    #[must_use]
    pub const fn new(processors: u32) -> Self {
        Request { processors, estimate: None, class: 0 }
    }

    /// Sets how long the job runs at most. 0 says that this is not known.
    #[must_use]
    pub const fn estimate(self, estimate: u64) -> Self {
        Request { estimate: NonZero::new(estimate), ..self }
    }

    /// Sets the class of the job: below [`CLASSES`]. Jobs of a lower class come first.
    #[must_use]
    pub const fn class(self, class: u8) -> Self {
        Request { class, ..self }
    }
}

impl Start {
    /// Returns the block of the job, which may have more processors than it asked for.
    #[must_use]
    pub const fn region(self) -> Region {
        Region { base: self.base, dim: self.dim }
    }

    /// Returns the numbers of the processors that the job has.
    #[must_use]
    pub const fn range(self) -> Range<u64> {
        self.base..self.base + self.processors as u64
    }
}

impl<J> Planner<J> {
    /// Opens a planner without jobs, at time 0. It takes all its memory now.
    ///
    /// # Errors
    ///
    /// The first of these that applies: `OutOfRange`, `OutOfMemory`.
    ///
    /// ```
    /// use cubejobs::plan::{OpenError, Options, Planner};
    ///
    /// let planner = Planner::<u64>::new(Options::new(20, 1000).patience(4))?;
    /// assert_eq!(planner.counts().largest, 1 << 20);
    /// assert_eq!(Planner::<u64>::new(Options::new(21, 1000)).err(), Some(OpenError::OutOfRange));
    /// # Ok::<(), OpenError>(())
    /// ```
    pub fn new(options: Options) -> Result<Self, OpenError> {
        let Options { dim, jobs, patience } = options;
        let mut open = Open(Handle::SHUT);
        match ffi::open(&mut open.0, ffi::Options { dim, jobs, patience, flags: 0 }) {
            ffi::DONE => {}
            ffi::OUT_OF_RANGE => return Err(OpenError::OutOfRange),
            ffi::OUT_OF_MEMORY => return Err(OpenError::OutOfMemory),
            code => unreachable!("an open has no code {code}"),
        }
        let slab = Slab::try_new(jobs as usize).ok_or(OpenError::OutOfMemory)?;
        Ok(Planner { handle: RefCell::new(open), jobs: slab, options })
    }

    /// Returns what the planner was opened for.
    #[must_use]
    pub fn options(&self) -> Options {
        self.options
    }

    /// Submits a job, which waits from now on. It allocates no memory.
    ///
    /// # Errors
    ///
    /// The first of these that applies, with the job: `OutOfRange`, `Full`.
    ///
    /// ```
    /// use cubejobs::plan::{Options, Planner, Request, SubmitReason};
    ///
    /// let mut planner = Planner::new(Options::new(3, 1))?;
    /// let refused = planner.submit(Request::new(9), "nine").unwrap_err();
    /// assert_eq!((refused.reason, refused.job), (SubmitReason::OutOfRange, "nine"));
    /// planner.submit(Request::new(8).class(7), "eight")?;
    /// let refused = planner.submit(Request::new(1), "one").unwrap_err();
    /// assert_eq!((refused.reason, refused.job), (SubmitReason::Full, "one"));
    /// # Ok::<(), Box<dyn std::error::Error>>(())
    /// ```
    pub fn submit(&mut self, request: Request, job: J) -> Result<Ticket, SubmitError<J>> {
        let Request { processors, estimate, class } = request;
        let asked = ffi::Request {
            payload: self.jobs.next_number(),
            estimate: estimate.map_or(0, NonZero::get),
            processors,
            job_class: class.into(),
        };
        let answer = ffi::submit(self.open_handle(), asked);
        let reason = match answer.code {
            ffi::DONE => {
                self.jobs.add(job);
                return Ok(Ticket::of(answer.ticket));
            }
            ffi::OUT_OF_RANGE => SubmitReason::OutOfRange,
            ffi::FULL => SubmitReason::Full,
            code => unreachable!("a submit has no code {code}"),
        };
        Err(SubmitError { reason, job })
    }

    /// Starts one job at this time. Returns `None` if none may start. See the
    /// [module](self#the-loop).
    ///
    /// # Errors
    ///
    /// The first of these that applies: `OutOfRange`, `Back`.
    pub fn next(&mut self, now: u64) -> Result<Option<Start>, TimeError> {
        let answer = ffi::next(self.open_handle(), now);
        match answer.code {
            ffi::DONE => Ok(Some(Start {
                ticket: Ticket::of(answer.ticket),
                base: answer.base,
                processors: answer.processors,
                dim: answer.dim,
                end: known(answer.time),
            })),
            ffi::NO_JOB => Ok(None),
            ffi::OUT_OF_RANGE => Err(TimeError::OutOfRange),
            ffi::TIME_BACK => Err(TimeError::Back),
            code => unreachable!("a decision has no code {code}"),
        }
    }

    /// Takes a waiting job back.
    ///
    /// # Errors
    ///
    /// The first of these that applies: `NoJob` (it is over), `WrongState` (it runs).
    pub fn cancel(&mut self, ticket: Ticket) -> Result<J, EndError> {
        let answer = ffi::cancel(self.open_handle(), ticket.0.get());
        self.ended(answer)
    }

    /// Says that a running job has ended, well or not, and returns it.
    ///
    /// # Errors
    ///
    /// The first of these that applies: `NoJob` (it is over), `WrongState` (it waits).
    pub fn finish(&mut self, ticket: Ticket) -> Result<J, EndError> {
        let answer = ffi::finish(self.open_handle(), ticket.0.get());
        self.ended(answer)
    }

    /// Takes a block out of service. Finish the jobs in it first. Occupy it before you ask for the
    /// next job. A reservation of a part of it ends.
    ///
    /// # Errors
    ///
    /// The first of these that applies: `OutOfRange`, `InUse`.
    pub fn occupy(&mut self, region: Region) -> Result<(), OccupyError> {
        match ffi::occupy(self.open_handle(), region.base, region.dim) {
            ffi::DONE => Ok(()),
            ffi::OUT_OF_RANGE => Err(OccupyError::OutOfRange),
            ffi::WRONG_STATE => Err(OccupyError::InUse),
            code => unreachable!("an occupy has no code {code}"),
        }
    }

    /// Puts exactly a block that was occupied back into service.
    ///
    /// # Errors
    ///
    /// The first of these that applies: `OutOfRange`, `NotOccupied`.
    pub fn vacate(&mut self, region: Region) -> Result<(), VacateError> {
        match ffi::vacate(self.open_handle(), region.base, region.dim) {
            ffi::DONE => Ok(()),
            ffi::OUT_OF_RANGE => Err(VacateError::OutOfRange),
            ffi::WRONG_STATE => Err(VacateError::NotOccupied),
            code => unreachable!("a vacate has no code {code}"),
        }
    }

    /// Returns where a job is. Returns `None` if it is over.
    #[must_use]
    pub fn forecast(&self, ticket: Ticket) -> Option<Forecast> {
        let found = self.found(ticket)?;
        let region = Region { base: found.base, dim: found.dim };
        Some(match JobState::of(found.state) {
            JobState::Runs => Forecast::Runs { region, end: known(found.time) },
            JobState::Reserved => Forecast::Reserved { region, promise: known(found.time) },
            JobState::Waits => Forecast::Waits { before: found.before },
        })
    }

    /// Returns what you submitted for a job. Returns `None` if the job is over.
    #[must_use]
    pub fn job(&self, ticket: Ticket) -> Option<&J> {
        let found = self.found(ticket)?;
        Some(self.jobs.get(found.payload))
    }

    /// Returns what you submitted for a job, to change it. Returns `None` if the job is over.
    #[must_use]
    pub fn job_mut(&mut self, ticket: Ticket) -> Option<&mut J> {
        let found = self.found(ticket)?;
        Some(self.jobs.get_mut(found.payload))
    }

    /// Returns all jobs with their tickets and states, in no order.
    #[must_use]
    pub fn jobs(&self) -> Jobs<'_, J> {
        Jobs { planner: self, last: 0 }
    }

    /// Counts jobs and processors.
    #[must_use]
    pub fn counts(&self) -> Counts {
        let answer = ffi::counts(&mut self.handle.borrow_mut().0);
        let ffi::Counts { waiting, running, held, asked, occupied, largest, .. } = answer;
        Counts { waiting, running, held, asked, occupied, largest }
    }

    fn open_handle(&mut self) -> &mut Handle {
        &mut self.handle.get_mut().0
    }

    /// Returns what the library says of a job.
    fn found(&self, ticket: Ticket) -> Option<ffi::Job> {
        let answer = ffi::forecast(&mut self.handle.borrow_mut().0, ticket.0.get());
        (answer.code == ffi::DONE).then_some(answer)
    }

    /// Returns the job of an answer, which is over, or why the call was refused.
    fn ended(&mut self, answer: ffi::Job) -> Result<J, EndError> {
        match answer.code {
            ffi::DONE => Ok(self.jobs.take(answer.payload)),
            ffi::NO_JOB => Err(EndError::NoJob),
            ffi::WRONG_STATE => Err(EndError::WrongState),
            code => unreachable!("an end has no code {code}"),
        }
    }
}

impl Drop for Open {
    fn drop(&mut self) {
        ffi::close(&mut self.0);
    }
}

impl Ticket {
    fn of(word: u64) -> Self {
        Ticket(NonZero::new(word).expect("a ticket is never 0"))
    }
}

impl JobState {
    fn of(state: u32) -> Self {
        match state {
            ffi::WAITS => JobState::Waits,
            ffi::RESERVED => JobState::Reserved,
            ffi::RUNS => JobState::Runs,
            state => unreachable!("a job has no state {state}"),
        }
    }
}

/// Returns a time, if it is known.
fn known(time: u64) -> Option<u64> {
    (time != ffi::NEVER).then_some(time)
}

impl<'a, J> Iterator for Jobs<'a, J> {
    type Item = (Ticket, &'a J, JobState);

    fn next(&mut self) -> Option<Self::Item> {
        let answer = ffi::after(&mut self.planner.handle.borrow_mut().0, self.last);
        if answer.code != ffi::DONE {
            return None;
        }
        self.last = answer.ticket;
        let job = self.planner.jobs.get(answer.payload);
        Some((Ticket::of(answer.ticket), job, JobState::of(answer.state)))
    }
}

impl<J> FusedIterator for Jobs<'_, J> {}

impl<J> Clone for Jobs<'_, J> {
    fn clone(&self) -> Self {
        Jobs { planner: self.planner, last: self.last }
    }
}

impl<J> SubmitError<J> {
    /// Returns the job that was not submitted.
    pub fn into_job(self) -> J {
        self.job
    }
}

impl<J> fmt::Debug for Planner<J> {
    fn fmt(&self, f: &mut fmt::Formatter<'_>) -> fmt::Result {
        let mut shown = f.debug_struct("Planner");
        shown.field("options", &self.options).field("counts", &self.counts()).finish_non_exhaustive()
    }
}

impl<J> fmt::Debug for Jobs<'_, J> {
    fn fmt(&self, f: &mut fmt::Formatter<'_>) -> fmt::Result {
        f.debug_struct("Jobs").field("planner", self.planner).finish_non_exhaustive()
    }
}

impl<J> fmt::Debug for SubmitError<J> {
    fn fmt(&self, f: &mut fmt::Formatter<'_>) -> fmt::Result {
        f.debug_struct("SubmitError").field("reason", &self.reason).finish_non_exhaustive()
    }
}

impl fmt::Display for OpenError {
    fn fmt(&self, f: &mut fmt::Formatter<'_>) -> fmt::Result {
        f.write_str(match self {
            OpenError::OutOfRange => "the dimension or the number of jobs is out of range",
            OpenError::OutOfMemory => "out of memory",
        })
    }
}

impl<J> fmt::Display for SubmitError<J> {
    fn fmt(&self, f: &mut fmt::Formatter<'_>) -> fmt::Result {
        self.reason.fmt(f)
    }
}

impl fmt::Display for SubmitReason {
    fn fmt(&self, f: &mut fmt::Formatter<'_>) -> fmt::Result {
        f.write_str(match self {
            SubmitReason::OutOfRange => "the number of processors or the class is out of range",
            SubmitReason::Full => "the planner has as many jobs as it may have",
        })
    }
}

impl fmt::Display for TimeError {
    fn fmt(&self, f: &mut fmt::Formatter<'_>) -> fmt::Result {
        f.write_str(match self {
            TimeError::OutOfRange => "the time is too large",
            TimeError::Back => "the time is before that of the last call",
        })
    }
}

impl fmt::Display for EndError {
    fn fmt(&self, f: &mut fmt::Formatter<'_>) -> fmt::Result {
        f.write_str(match self {
            EndError::NoJob => "the job is over",
            EndError::WrongState => "the job runs and cannot be cancelled, or it waits and cannot end",
        })
    }
}

impl fmt::Display for OccupyError {
    fn fmt(&self, f: &mut fmt::Formatter<'_>) -> fmt::Result {
        f.write_str(match self {
            OccupyError::OutOfRange => "the machine has no such block",
            OccupyError::InUse => "a part of the block is in use",
        })
    }
}

impl fmt::Display for VacateError {
    fn fmt(&self, f: &mut fmt::Formatter<'_>) -> fmt::Result {
        f.write_str(match self {
            VacateError::OutOfRange => "the machine has no such block",
            VacateError::NotOccupied => "no call has taken this block out of service",
        })
    }
}

impl Error for OpenError {}
impl<J> Error for SubmitError<J> {}
impl Error for SubmitReason {}
impl Error for TimeError {}
impl Error for EndError {}
impl Error for OccupyError {}
impl Error for VacateError {}
