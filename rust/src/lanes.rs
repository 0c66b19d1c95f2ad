//! Bounded queues of jobs (lanes), without locks: safe Rust over the library `cubejobs_lanes`.
//!
//! Each producer has a [`Lane`], and each worker takes jobs from any lane. A submit or a take is a
//! few atomic steps. Each accepted job is taken once, or is left at the end. This is proved of the
//! library for every interleaving of the calls. Producers that share a lane keep it under a mutex.
//!
//! ```
//! use cubejobs::lanes::{Lanes, Sizes};
//! use std::thread;
//!
//! # #[cfg(not(feature = "std"))]
//! # fn main() {}
//! # #[cfg(feature = "std")]
//! # fn main() -> Result<(), Box<dyn std::error::Error>> {
//! let lanes = Lanes::<u64>::new(Sizes { lanes: 1, workers: 2, capacity: 64 })?;
//! let mut lane = lanes.lane()?;
//! let workers = [lanes.worker()?, lanes.worker()?].map(|worker| {
//!     // The iterator sleeps until there is a job.
//!     thread::spawn(move || worker.into_iter().map(|job| job.payload).sum::<u64>())
//! });
//! for number in 1..=10 {
//!     lane.submit(number, 0).unwrap();
//! }
//! lanes.close(); // the workers take what is left, and end
//! let sums = workers.map(|it| it.join().unwrap());
//! assert_eq!(sums[0] + sums[1], 55);
//! # Ok(())
//! # }
//! ```
//!
//! A job carries a `u64`, or a `Box` of yours ([`Payload`]). It has a second number too, of any
//! meaning, such as the dimension of a block.
//!
//! # What a drop means
//!
//! - A [`Lane`] or a [`Worker`] is back, and [`Lanes::lane`] or [`Lanes::worker`] can return it
//!   again.
//! - A [`Worker`] that sleeps waits, and the next [`Lanes::worker`] returns it as it is.
//! - The [`Lanes`] close. The handles still work, and the last one that is dropped frees all.
//! - A [`Rest`], and the last of all handles, drop the jobs that are left, with their payloads.
//!
//! So no job is lost if you call [`Lanes::finish`] at the end, and take the jobs that it returns.
//!
//! # Sleep
//!
//! With the feature `std`, `Worker::next` sleeps until there is a job, and `Lane::submit_or_wait`
//! until there is a place for one. Without it your threads park
//! by what you have. [`Worker::find`] says when to park. [`Accepted`] and [`Finding`] say which
//! worker to wake.
//!
//! # What is not checked
//!
//! These types keep what the library asks of its callers, except for two things. No call may come
//! from a signal handler or from a forked child, and `malloc` and `free` must belong to one
//! allocator. A take sees the memory that was written before the submit. Tests show that, and no
//! theorem says so.

#[cfg(feature = "std")]
use crate::event::deadline_of;
use crate::lanes_ffi as ffi;
pub use crate::payload::Payload;
#[cfg(feature = "std")]
use crate::place::pause;
pub use crate::room::Out;
use crate::room::Room;
use crate::shared::Shared;
use core::error::Error;
use core::fmt;
#[cfg(feature = "std")]
use std::time::{Duration, Instant};

/// The most lanes. See [`Sizes`].
pub const MAX_LANES: u32 = ffi::MAX_LANES;

/// The most workers. See [`Sizes`].
pub const MAX_WORKERS: u32 = ffi::MAX_WORKERS;

/// The most jobs that a lane can hold. See [`Sizes`].
pub const MAX_CAPACITY: u64 = ffi::MAX_CAPACITY;

/// The number of lanes and of workers, and the number of jobs that each lane can hold. See
/// [`Lanes::new`].
#[derive(Clone, Copy, Debug, PartialEq, Eq)]
pub struct Sizes {
    /// The number of lanes, from 1 to [`MAX_LANES`].
    pub lanes: u32,
    /// The number of workers, from 1 to [`MAX_WORKERS`].
    pub workers: u32,
    /// The number of jobs that each lane can hold, from 1 to [`MAX_CAPACITY`].
    pub capacity: u64,
}

/// Lanes: their owner, which deals out the handles. Threads may share it by reference. See the
/// [module](self).
#[must_use = "a drop closes the lanes"]
pub struct Lanes<P: Payload> {
    room: Shared<Room<P>>,
}

/// The handle of a producer, with a lane of its own. A drop gives it back. See [`Lane::submit`].
#[must_use = "a drop gives the lane back"]
pub struct Lane<P: Payload> {
    room: Shared<Room<P>>,
    handle: ffi::OneLane,
}

/// The handle of a worker. A drop gives it back. See [`Worker::take`]. With the feature `std` it
/// becomes an iterator ([`IntoIterator`]).
#[must_use = "a drop gives the worker back"]
pub struct Worker<P: Payload> {
    room: Shared<Room<P>>,
    handle: ffi::OneWorker,
    number: u32,
    #[cfg(feature = "std")]
    from: u32,
}

/// The jobs of a worker: an iterator that sleeps until there is a job. It ends when the lanes are
/// closed, and no lane has a job. A drop gives the worker back. See the [module](self).
#[cfg(feature = "std")]
#[must_use = "a drop gives the worker back"]
pub struct Jobs<P: Payload> {
    worker: Worker<P>,
}

/// A job that was taken, or is left. See [`Worker::take`] and [`Rest`].
#[derive(Clone, Copy, Debug, PartialEq, Eq)]
pub struct Job<P> {
    /// The number of its lane.
    pub lane: u32,
    /// Its number in the lane, from 0 on.
    pub seq: u64,
    /// Its second number.
    pub dim: u32,
    /// What it carries.
    pub payload: P,
}

/// What a submit has done. See [`Lane::submit`].
#[derive(Clone, Copy, Debug, PartialEq, Eq)]
pub struct Accepted {
    /// The number of the job in its lane, from 0 on.
    pub seq: u64,
    /// The worker to wake: if its thread is parked by means of yours, unpark it.
    pub woken: Option<u32>,
}

/// The error of a submit, with the payload. See [`Lane::submit`].
#[derive(Clone, Copy, PartialEq, Eq)]
#[non_exhaustive]
pub struct Refused<R, P> {
    /// The reason.
    pub reason: R,
    /// The payload of the job that was not submitted.
    pub payload: P,
}

/// What [`Worker::find`] has found: see there.
#[derive(Clone, Copy, Debug, PartialEq, Eq)]
#[must_use = "it may have a job, and a worker to wake"]
pub struct Finding<P> {
    /// What to do next.
    pub found: Found<P>,
    /// The worker to wake: if its thread is parked by means of yours, unpark it.
    pub woken: Option<u32>,
}

/// What a worker is to do next. See [`Worker::find`].
#[derive(Clone, Copy, Debug, PartialEq, Eq)]
pub enum Found<P> {
    /// Run the job.
    Job(Job<P>),
    /// Stop: the lanes are closed, and no lane has a job.
    Ended,
    /// Park the thread until [`Worker::awake`] returns `true`, and then call again.
    Park,
    /// Call again: other calls were in the way.
    Again,
}

/// The jobs that are left in ended lanes: an iterator. First come those of workers that were
/// dropped as they slept. Then it goes lane by lane, in the order of each. See [`Lanes::finish`].
#[must_use = "a drop drops the jobs that are left"]
pub struct Rest<P: Payload> {
    room: Shared<Room<P>>,
}

/// The error of lanes that were not finished, with the lanes. They are closed. See
/// [`Lanes::finish`].
#[non_exhaustive]
pub struct StillOut<L> {
    /// The lanes.
    pub owner: L,
    /// The first handle that is not back.
    pub out: Out,
}

/// The reason why lanes were not opened. See [`Lanes::new`].
#[derive(Clone, Copy, Debug, PartialEq, Eq)]
#[non_exhaustive]
pub enum OpenError {
    /// A size is out of range.
    BadSizes,
    /// Memory ran out.
    OutOfMemory,
}

/// The reason why a handle was not dealt out. See [`Lanes::lane`].
#[derive(Clone, Copy, Debug, PartialEq, Eq)]
#[non_exhaustive]
pub enum DealError {
    /// All lanes, or all workers, are out.
    NoneLeft,
    /// Memory ran out.
    OutOfMemory,
}

/// The reason of a refused submit. See [`Lane::submit`].
#[derive(Clone, Copy, Debug, PartialEq, Eq)]
#[non_exhaustive]
pub enum SubmitError {
    /// The lane has as many jobs as its capacity.
    Full,
    /// The lanes are closed.
    Closed,
    /// The lane has accepted `2^62` jobs.
    Spent,
    /// The lane had as many jobs as its capacity for all of the time.
    TimedOut,
}

/// The reason why no job was taken. See [`Worker::take`].
#[derive(Clone, Copy, Debug, PartialEq, Eq)]
#[non_exhaustive]
pub enum TakeError {
    /// There is no lane with this number.
    BadLane,
    /// There is no job.
    Empty,
    /// There is no job, and the lanes are closed.
    Ended,
    /// Another worker took the job.
    Lost,
    /// A [`Worker::find`] has not come to its end: call it again.
    Asleep,
}

impl<P: Payload> Lanes<P> {
    /// Opens lanes with no job.
    ///
    /// # Errors
    ///
    /// The first of these that applies: `BadSizes`, `OutOfMemory`.
    ///
    /// ```
    /// use cubejobs::lanes::{DealError, Lanes, OpenError, Sizes};
    ///
    /// let lanes = Lanes::<u64>::new(Sizes { lanes: 1, workers: 4, capacity: 8 })?;
    /// let lane = lanes.lane()?;
    /// assert_eq!(lanes.lane().err(), Some(DealError::NoneLeft));
    /// drop(lane); // it is back
    /// assert!(lanes.lane().is_ok());
    ///
    /// let refused = Lanes::<u64>::new(Sizes { lanes: 1, workers: 0, capacity: 8 });
    /// assert_eq!(refused.err(), Some(OpenError::BadSizes));
    /// # Ok::<(), Box<dyn std::error::Error>>(())
    /// ```
    pub fn new(sizes: Sizes) -> Result<Self, OpenError> {
        let Sizes { lanes, workers, capacity } = sizes;
        let sizes = ffi::Sizes { lanes, workers, capacity };
        match Room::open(sizes) {
            Ok(room) => Shared::try_new(room).map(|room| Lanes { room }).map_err(|_| OpenError::OutOfMemory),
            Err(code) => Err(OpenError::of(code)),
        }
    }

    /// Returns the handle of the first lane that is not out. See [`Lanes::new`].
    ///
    /// # Errors
    ///
    /// `NoneLeft` if all lanes are out, or `OutOfMemory`.
    pub fn lane(&self) -> Result<Lane<P>, DealError> {
        let handle = self.room.lane().map_err(DealError::of)?;
        Ok(Lane { room: self.room.clone(), handle })
    }

    /// Returns the handle of a worker that is not out: one that was dropped as it slept, or else
    /// the first. See [`Worker::take`].
    ///
    /// # Errors
    ///
    /// `NoneLeft` if all workers are out, or `OutOfMemory`.
    pub fn worker(&self) -> Result<Worker<P>, DealError> {
        let (handle, number) = self.room.worker().map_err(DealError::of)?;
        Ok(Worker {
            room: self.room.clone(),
            handle,
            number,
            #[cfg(feature = "std")]
            from: number % self.room.lanes,
        })
    }

    /// Closes all lanes, one after another: from then on they accept no job. Returns the number of
    /// all jobs that they accepted, or `None` if they were closed before. See the [module](self).
    ///
    /// Each worker that sleeps gets up. If threads are parked by means of yours, unpark those of
    /// all workers.
    #[allow(clippy::must_use_candidate)] // the number is no use to some
    pub fn close(&self) -> Option<u64> {
        self.room.close()
    }

    /// Ends the lanes, and returns the jobs that are left. It closes them, unless they are closed.
    ///
    /// # Errors
    ///
    /// If a handle is out, returns the lanes, closed, and names the handle.
    ///
    /// ```
    /// use cubejobs::lanes::{Lanes, Sizes};
    ///
    /// let lanes = Lanes::<u64>::new(Sizes { lanes: 1, workers: 1, capacity: 8 })?;
    /// let mut lane = lanes.lane()?;
    /// lane.submit(70, 0).unwrap();
    /// let lanes = lanes.finish().unwrap_err().owner; // a lane is out
    /// drop(lane);
    /// let left: Vec<u64> = lanes.finish()?.map(|job| job.payload).collect();
    /// assert_eq!(left, [70]);
    /// # Ok::<(), Box<dyn std::error::Error>>(())
    /// ```
    pub fn finish(self) -> Result<Rest<P>, StillOut<Self>> {
        match self.room.finish() {
            Ok(()) => Ok(Rest { room: self.room.clone() }),
            Err(out) => Err(StillOut { owner: self, out }),
        }
    }
}

impl<P: Payload> Lane<P> {
    /// Submits a job. Then it gives a token to a worker that sleeps, unless a worker is looking for
    /// jobs. With the feature `std` it also wakes the thread of that worker.
    ///
    /// # Errors
    ///
    /// The first of these that applies: `Closed`, `Spent`, `Full`. With `Full` the lane had as many
    /// jobs as its capacity.
    ///
    /// ```
    /// use cubejobs::lanes::{Lanes, Sizes, SubmitError};
    ///
    /// let lanes = Lanes::<Box<u64>>::new(Sizes { lanes: 1, workers: 1, capacity: 1 })?;
    /// let mut lane = lanes.lane()?;
    /// assert_eq!(lane.submit(Box::new(70), 0)?.seq, 0);
    /// let refused = lane.submit(Box::new(71), 0).unwrap_err();
    /// assert_eq!((refused.reason, *refused.payload), (SubmitError::Full, 71));
    /// # Ok::<(), Box<dyn std::error::Error>>(())
    /// ```
    pub fn submit(&mut self, payload: P, dim: u32) -> Result<Accepted, Refused<SubmitError, P>> {
        let word = payload.into_word();
        let submitted = ffi::cubejobs_lanes_submit(&mut self.handle, word, dim);
        if submitted.code != ffi::DONE {
            // SAFETY: the word is that of this payload, and the lanes did not accept it.
            let payload = unsafe { P::from_word(word) };
            return Err(Refused { reason: SubmitError::of(submitted.code), payload });
        }
        Ok(Accepted { seq: submitted.seq, woken: self.room.wake(&mut self.handle) })
    }

    /// Submits a job as [`submit`](Lane::submit) does, and sleeps while the lane is full.
    ///
    /// # Errors
    ///
    /// The first of these that applies: `Closed`, `Spent`. A close ends the sleep.
    ///
    /// ```
    /// use cubejobs::lanes::{Lanes, Sizes};
    /// use std::thread;
    ///
    /// let lanes = Lanes::<u64>::new(Sizes { lanes: 1, workers: 1, capacity: 2 })?;
    /// let (mut lane, mut worker) = (lanes.lane()?, lanes.worker()?);
    /// let thread = thread::spawn(move || (0..10).all(|it| lane.submit_or_wait(it, 0).is_ok()));
    /// assert!((0..10).all(|it| worker.next().unwrap().payload == it));
    /// assert!(thread.join().unwrap());
    /// # Ok::<(), Box<dyn std::error::Error>>(())
    /// ```
    #[cfg(feature = "std")]
    pub fn submit_or_wait(&mut self, payload: P, dim: u32) -> Result<Accepted, Refused<SubmitError, P>> {
        self.submit_until(payload, dim, None)
    }

    /// Submits a job as [`submit`](Lane::submit) does, and sleeps while the lane is full, but no
    /// longer than `timeout`.
    ///
    /// # Errors
    ///
    /// The first of these that applies: `Closed`, `Spent`, `TimedOut`.
    #[cfg(feature = "std")]
    pub fn submit_timeout(
        &mut self,
        payload: P,
        dim: u32,
        timeout: Duration,
    ) -> Result<Accepted, Refused<SubmitError, P>> {
        self.submit_until(payload, dim, deadline_of(timeout))
    }

    /// Submits a job, and sleeps while the lane is full. It tries once more after its deadline.
    ///
    /// A take raises the event after it. A submit reads its key before it finds the lane full. So
    /// it misses no place that becomes free later.
    #[cfg(feature = "std")]
    fn submit_until(
        &mut self,
        payload: P,
        dim: u32,
        deadline: Option<Instant>,
    ) -> Result<Accepted, Refused<SubmitError, P>> {
        let mut refused = match self.submit(payload, dim) {
            Err(refused) if refused.reason == SubmitError::Full => refused,
            submitted => return submitted,
        };
        loop {
            let is_last = deadline.is_some_and(|it| it <= Instant::now());
            let key = self.room.event.key();
            refused = match self.submit(refused.payload, dim) {
                Err(refused) if refused.reason == SubmitError::Full => refused,
                submitted => return submitted,
            };
            if is_last {
                return Err(Refused { reason: SubmitError::TimedOut, payload: refused.payload });
            }
            self.room.event.wait(key, deadline);
        }
    }
}

impl<P: Payload> Worker<P> {
    /// Returns the number of the worker: from 0 on, below the number of workers. See
    /// [`Worker::find`].
    #[must_use]
    pub fn number(&self) -> u32 {
        self.number
    }

    /// Takes the first job of a lane. With `Empty` and `Ended` it had none at a moment of the call.
    ///
    /// # Errors
    ///
    /// The first of these that applies: `Asleep`, `BadLane`, `Empty`, `Ended`, `Lost`.
    ///
    /// ```
    /// use cubejobs::lanes::{Lanes, Sizes, TakeError};
    ///
    /// let lanes = Lanes::<u64>::new(Sizes { lanes: 2, workers: 1, capacity: 8 })?;
    /// let (mut one, mut two, mut worker) = (lanes.lane()?, lanes.lane()?, lanes.worker()?);
    /// one.submit(70, 0)?;
    /// two.submit(80, 3)?;
    /// assert_eq!(worker.look(0), Ok(1));
    /// assert_eq!(worker.take(0)?.payload, 70);
    /// assert_eq!(worker.take(0), Err(TakeError::Empty));
    /// let job = worker.take_any(0)?;
    /// assert_eq!((job.lane, job.seq, job.dim, job.payload), (1, 0, 3, 80));
    /// # Ok::<(), Box<dyn std::error::Error>>(())
    /// ```
    pub fn take(&mut self, lane: u32) -> Result<Job<P>, TakeError> {
        let job = ffi::cubejobs_lanes_take(&mut self.handle, lane);
        self.taken(job)
    }

    /// Goes round all lanes, from lane `from` on, and takes the first job that it can. See
    /// [`Worker::take`].
    ///
    /// # Errors
    ///
    /// The first of these that applies: `Asleep`, `BadLane`, `Empty` (no lane has a job, or other
    /// workers took it), `Ended`.
    pub fn take_any(&mut self, from: u32) -> Result<Job<P>, TakeError> {
        let job = ffi::cubejobs_lanes_take_any(&mut self.handle, from);
        self.taken(job)
    }

    /// Returns the number of jobs in a lane that the worker knows of, at least 1. It takes none.
    /// See [`Worker::take`].
    ///
    /// # Errors
    ///
    /// The first of these that applies: `Asleep`, `BadLane`, `Empty`, `Ended`.
    pub fn look(&mut self, lane: u32) -> Result<u64, TakeError> {
        let looked = ffi::cubejobs_lanes_look(&mut self.handle, lane);
        match looked.code {
            ffi::DONE => Ok(looked.jobs),
            code => Err(TakeError::of(code)),
        }
    }

    /// Takes a job as [`Worker::take_any`] does, or has the worker lie down: then park its thread.
    /// It begins at the lane `from`, modulo the number of lanes.
    ///
    /// A worker that lies down may get a wake that others then do not get. So park and call until
    /// there is a job or the end. Threads can park by any means:
    ///
    #[doc = concat!("```\n", include_str!("../examples/park.rs"), "\n```")]
    pub fn find(&mut self, from: u32) -> Finding<P> {
        let ffi::Found { code, lane, dim, woken, seq, payload, .. } =
            ffi::cubejobs_lanes_find(&mut self.handle, from % self.room.lanes);
        let found = match code {
            ffi::DONE => {
                self.room.raise();
                // SAFETY: a submit of these lanes made the word of a `P`, and a job is found once.
                let payload = unsafe { P::from_word(payload) };
                Found::Job(Job { lane, seq, dim, payload })
            }
            ffi::ENDED => Found::Ended,
            ffi::PARK => Found::Park,
            ffi::AGAIN => Found::Again,
            code => unreachable!("a find has no code {code}"),
        };
        Finding { found, woken: self.room.unpark(woken) }
    }

    /// Returns the next job, and sleeps until there is one. It goes round the lanes, from the one
    /// after that of the last job on. Returns `None` at the end: the lanes are closed, and no lane
    /// has a job. See the [module](self).
    #[cfg(feature = "std")]
    #[allow(clippy::should_implement_trait)] // an iterator has methods of other meanings, as `take`
    pub fn next(&mut self) -> Option<Job<P>> {
        loop {
            match self.find(self.from).found {
                Found::Job(job) => {
                    self.from = (job.lane + 1) % self.room.lanes;
                    return Some(job);
                }
                Found::Ended => return None,
                Found::Park => {
                    while !self.awake() {
                        self.room.parking.park(self.number);
                    }
                }
                Found::Again => pause(),
            }
        }
    }

    /// Takes the token of a worker that parks. Returns whether the worker is up then. See
    /// [`Worker::find`].
    pub fn awake(&mut self) -> bool {
        ffi::cubejobs_lanes_awake(&mut self.handle) == ffi::DONE
    }

    /// Returns the job that a take got, or why there is none.
    fn taken(&self, job: ffi::Job) -> Result<Job<P>, TakeError> {
        match job.code {
            ffi::DONE => {
                self.room.raise();
                // SAFETY: a submit of these lanes made the word of a `P`, and a job is taken once.
                Ok(unsafe { Job::of(job) })
            }
            code => Err(TakeError::of(code)),
        }
    }
}

#[cfg(feature = "std")]
impl<P: Payload> IntoIterator for Worker<P> {
    type Item = Job<P>;
    type IntoIter = Jobs<P>;

    /// Returns the jobs that [`Worker::next`] returns.
    fn into_iter(self) -> Jobs<P> {
        Jobs { worker: self }
    }
}

#[cfg(feature = "std")]
impl<P: Payload> Iterator for Jobs<P> {
    type Item = Job<P>;

    fn next(&mut self) -> Option<Job<P>> {
        self.worker.next()
    }
}

impl<P: Payload> Job<P> {
    /// Returns a job of the library.
    ///
    /// # Safety
    /// A submit made its word, of a `P`, and no other call gets it.
    unsafe fn of(job: ffi::Job) -> Self {
        let ffi::Job { lane, dim, seq, payload, .. } = job;
        // SAFETY: as the caller promises.
        Job { lane, seq, dim, payload: unsafe { P::from_word(payload) } }
    }
}

impl<P: Payload> Iterator for Rest<P> {
    type Item = Job<P>;

    fn next(&mut self) -> Option<Job<P>> {
        // SAFETY: a submit of these lanes made the word of a `P`, and a job is left once.
        self.room.rest().map(|job| unsafe { Job::of(job) })
    }
}

impl<P: Payload> Drop for Lanes<P> {
    fn drop(&mut self) {
        self.room.close();
    }
}

impl<P: Payload> Drop for Lane<P> {
    fn drop(&mut self) {
        ffi::cubejobs_lanes_free_lane(&mut self.handle);
    }
}

impl<P: Payload> Drop for Worker<P> {
    fn drop(&mut self) {
        self.room.free_worker(&mut self.handle);
    }
}

impl OpenError {
    fn of(code: u32) -> Self {
        match code {
            ffi::BAD_SIZES => OpenError::BadSizes,
            ffi::OUT_OF_MEMORY => OpenError::OutOfMemory,
            code => unreachable!("an open has no code {code}"),
        }
    }
}

impl DealError {
    fn of(code: u32) -> Self {
        match code {
            ffi::NONE_LEFT => DealError::NoneLeft,
            ffi::OUT_OF_MEMORY => DealError::OutOfMemory,
            code => unreachable!("no handle is refused by the code {code}"),
        }
    }
}

impl SubmitError {
    fn of(code: u32) -> Self {
        match code {
            ffi::FULL => SubmitError::Full,
            ffi::CLOSED => SubmitError::Closed,
            ffi::SPENT => SubmitError::Spent,
            code => unreachable!("a submit has no code {code}"),
        }
    }
}

impl TakeError {
    fn of(code: u32) -> Self {
        match code {
            ffi::BAD_LANE => TakeError::BadLane,
            ffi::EMPTY => TakeError::Empty,
            ffi::ENDED => TakeError::Ended,
            ffi::LOST => TakeError::Lost,
            ffi::ASLEEP => TakeError::Asleep,
            code => unreachable!("a take has no code {code}"),
        }
    }
}

impl<P: Payload> fmt::Debug for Lanes<P> {
    fn fmt(&self, f: &mut fmt::Formatter<'_>) -> fmt::Result {
        f.debug_struct("Lanes").finish_non_exhaustive()
    }
}

impl<P: Payload> fmt::Debug for Lane<P> {
    fn fmt(&self, f: &mut fmt::Formatter<'_>) -> fmt::Result {
        f.debug_struct("Lane").finish_non_exhaustive()
    }
}

impl<P: Payload> fmt::Debug for Worker<P> {
    fn fmt(&self, f: &mut fmt::Formatter<'_>) -> fmt::Result {
        f.debug_struct("Worker").field("number", &self.number).finish_non_exhaustive()
    }
}

#[cfg(feature = "std")]
impl<P: Payload> fmt::Debug for Jobs<P> {
    fn fmt(&self, f: &mut fmt::Formatter<'_>) -> fmt::Result {
        f.debug_struct("Jobs").field("worker", &self.worker).finish()
    }
}

impl<P: Payload> fmt::Debug for Rest<P> {
    fn fmt(&self, f: &mut fmt::Formatter<'_>) -> fmt::Result {
        f.debug_struct("Rest").finish_non_exhaustive()
    }
}

impl<R: fmt::Debug, P> fmt::Debug for Refused<R, P> {
    fn fmt(&self, f: &mut fmt::Formatter<'_>) -> fmt::Result {
        f.debug_struct("Refused").field("reason", &self.reason).finish_non_exhaustive()
    }
}

impl<L: fmt::Debug> fmt::Debug for StillOut<L> {
    fn fmt(&self, f: &mut fmt::Formatter<'_>) -> fmt::Result {
        f.debug_struct("StillOut").field("owner", &self.owner).field("out", &self.out).finish()
    }
}

impl fmt::Display for OpenError {
    fn fmt(&self, f: &mut fmt::Formatter<'_>) -> fmt::Result {
        f.write_str(match self {
            OpenError::BadSizes => "a size of the lanes is out of range",
            OpenError::OutOfMemory => "out of memory",
        })
    }
}

impl fmt::Display for DealError {
    fn fmt(&self, f: &mut fmt::Formatter<'_>) -> fmt::Result {
        f.write_str(match self {
            DealError::NoneLeft => "all lanes, or all workers, are out",
            DealError::OutOfMemory => "out of memory",
        })
    }
}

impl fmt::Display for SubmitError {
    fn fmt(&self, f: &mut fmt::Formatter<'_>) -> fmt::Result {
        f.write_str(match self {
            SubmitError::Full => "the lane is full",
            SubmitError::Closed => "the lanes are closed",
            SubmitError::Spent => "the lane has accepted 2^62 jobs",
            SubmitError::TimedOut => "the lane was full for all of the time",
        })
    }
}

impl fmt::Display for TakeError {
    fn fmt(&self, f: &mut fmt::Formatter<'_>) -> fmt::Result {
        f.write_str(match self {
            TakeError::BadLane => "there is no such lane",
            TakeError::Empty => "there is no job",
            TakeError::Ended => "there is no job, and the lanes are closed",
            TakeError::Lost => "another worker took the job",
            TakeError::Asleep => "a find of the worker has not come to its end",
        })
    }
}

impl<R: fmt::Display, P> fmt::Display for Refused<R, P> {
    fn fmt(&self, f: &mut fmt::Formatter<'_>) -> fmt::Result {
        self.reason.fmt(f)
    }
}

impl<L> fmt::Display for StillOut<L> {
    fn fmt(&self, f: &mut fmt::Formatter<'_>) -> fmt::Result {
        match self.out {
            Out::Lane(number) => write!(f, "lane {number} is not back"),
            Out::Worker(number) => write!(f, "worker {number} is not back"),
        }
    }
}

impl Error for OpenError {}
impl Error for DealError {}
impl Error for SubmitError {}
impl Error for TakeError {}
impl<R: fmt::Debug + fmt::Display, P> Error for Refused<R, P> {}
impl<L: fmt::Debug> Error for StillOut<L> {}
