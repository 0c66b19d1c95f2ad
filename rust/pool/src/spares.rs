//! The threads of a pool, and which of them have a worker.
//!
//! A thread whose job waits leaves its worker (its desk) here. It goes to a spare thread: one that
//! sleeps, or a new one. If there are as many as the pool may have, the worker is kept here, until
//! its thread or another one wants it. A thread that goes on after a wait has no worker. After its
//! job it takes one that is kept, or sleeps as a spare.
//!
//! Not all workers are kept: the last one goes to a new thread in any case. So does one whose seat
//! a gang has called.

use crate::current;
use crate::desk::Desk;
use crate::job::Awaited;
use crate::shared::Shared;
use crate::util::{catch_quietly, lock};
use std::fmt;
use std::io;
use std::sync::atomic::{AtomicBool, Ordering::SeqCst};
use std::sync::{Arc, Mutex, OnceLock};
use std::thread::{self, JoinHandle, Thread};

/// What threads of a pool are to be. See [`Builder`](crate::Builder).
#[derive(Clone)]
pub(crate) struct Settings {
    /// The number of spares, besides the workers.
    pub max_threads: usize,
    pub stack_size: usize,
    pub name: Arc<dyn Fn(usize) -> String + Send + Sync>,
    pub start: Arc<dyn Fn(usize) + Send + Sync>,
}

/// What a spare thread gets: a worker, a job that it runs first, or both.
pub(crate) struct Given {
    pub desk: Option<Box<Desk>>,
    pub job: Option<Awaited>,
}

/// Where a thread of a pool finds what it is given.
#[derive(Default)]
pub(crate) struct Inbox {
    thread: OnceLock<Thread>,
    given: Mutex<Option<Given>>,
}

/// Where the worker of a thread is whose job waits.
pub(crate) enum Left {
    /// Another thread has it, with the job.
    Given,
    /// The worker, which has this number, is kept, and the job is refused.
    Kept(usize, Option<Awaited>),
    /// The system has no thread for it, and it is the last one that is awake.
    Refused(Given),
}

pub(crate) struct Spares {
    workers: usize,
    settings: Settings,
    state: Mutex<State>,
    is_over: AtomicBool,
    /// Whether the system has refused a thread to a gang.
    has_failed: AtomicBool,
}

#[derive(Default)]
struct State {
    /// The threads that sleep for want of a worker.
    idle: Vec<Arc<Inbox>>,
    /// The workers whose threads wait, and have kept them.
    #[allow(clippy::vec_box)] // a desk goes from thread to thread as a box
    kept: Vec<Box<Desk>>,
    /// The number of threads that were started.
    started: usize,
    handles: Vec<JoinHandle<()>>,
}

impl Inbox {
    /// Makes this thread the one of the inbox.
    pub fn settle(&self) {
        let _ = self.thread.set(thread::current());
    }

    fn give(&self, given: Given) {
        *lock(&self.given) = Some(given);
        if let Some(thread) = self.thread.get() {
            thread.unpark();
        }
    }

    fn take(&self) -> Option<Given> {
        lock(&self.given).take()
    }
}

impl State {
    /// Takes the worker with this number, if it is kept.
    fn take_kept(&mut self, index: usize) -> Option<Box<Desk>> {
        let at = self.kept.iter().position(|desk| desk.index == index)?;
        Some(self.kept.swap_remove(at))
    }
}

impl Spares {
    pub fn new(workers: usize, settings: Settings) -> Self {
        Spares {
            workers,
            settings,
            state: Mutex::default(),
            is_over: AtomicBool::new(false),
            has_failed: AtomicBool::new(false),
        }
    }

    /// Returns the bytes of a thread's stack.
    pub fn stack_size(&self) -> usize {
        self.settings.stack_size
    }

    /// Starts a thread with what it is given first. If the system refuses it, returns the error and
    /// what was to be given.
    fn start(&self, pool: &Shared, state: &mut State, given: Given) -> Result<(), (io::Error, Given)> {
        let (number, inbox) = (state.started, Arc::new(Inbox::default()));
        let (shared, ours) = (pool.share(), inbox.clone());
        inbox.give(given);
        let named = thread::Builder::new().name(self.settings.name_of(number));
        let handler = self.settings.start.clone();
        let started = named.stack_size(self.settings.stack_size).spawn(move || {
            catch_quietly(|| handler(number));
            current::work(shared, ours, number);
        });
        match started {
            Ok(handle) => {
                state.started += 1;
                state.handles.push(handle);
                Ok(())
            }
            Err(error) => Err((error, inbox.take().expect("a thread that was not started takes nothing"))),
        }
    }

    /// Starts the first thread of a worker.
    ///
    /// # Errors
    ///
    /// The error is that of the system.
    pub fn start_worker(&self, pool: &Shared, desk: Desk) -> io::Result<()> {
        let given = Given { desk: Some(Box::new(desk)), job: None };
        self.start(pool, &mut lock(&self.state), given).map_err(|(error, _)| error)
    }

    /// Leaves the worker of a thread whose job waits. A spare that gets the worker runs this job
    /// first.
    pub fn leave(&self, pool: &Shared, desk: Box<Desk>, job: Option<Awaited>) -> Left {
        let index = desk.index;
        let mut state = lock(&self.state);
        let is_last = state.kept.len() + 1 == self.workers;
        let may_start = is_last || self.may_start(&state, job.is_some()) || pool.seats[index].is_called();
        let refused = match self.give(pool, &mut state, Given { desk: Some(desk), job }, may_start) {
            Ok(()) => return Left::Given,
            Err(refused) if is_last => return Left::Refused(refused),
            Err(refused) => refused,
        };
        state.kept.extend(refused.desk);
        pool.seats[index].is_kept.store(true, SeqCst);
        // Either this sees the call of a gang, or the gang sees that the worker is kept.
        if pool.seats[index].is_called() {
            self.serve_kept(pool, &mut state, index);
        }
        Left::Kept(index, refused.job)
    }

    /// Gives a job to a spare that needs no worker for it. Returns the job if there is no spare.
    pub fn pass_on(&self, pool: &Shared, job: Awaited) -> Result<(), Awaited> {
        let mut state = lock(&self.state);
        let may_start = self.may_start(&state, true);
        let given = self.give(pool, &mut state, Given { desk: None, job: Some(job) }, may_start);
        given.map_err(|refused| refused.job.expect("what is refused has its job"))
    }

    /// Returns whether there may be one more spare. Half of the limit is for jobs that wait on a
    /// stack which is half used.
    fn may_start(&self, state: &State, is_deep: bool) -> bool {
        let max = self.settings.max_threads;
        let limit = if is_deep { max } else { max.div_ceil(2) };
        state.started < self.workers + limit
    }

    /// Gives to a spare that sleeps, or to a new one if there may be one.
    fn give(&self, pool: &Shared, state: &mut State, given: Given, may_start: bool) -> Result<(), Given> {
        match state.idle.pop() {
            Some(idle) => {
                idle.give(given);
                Ok(())
            }
            None if may_start => self.start(pool, state, given).map_err(|(_, given)| given),
            None => Err(given),
        }
    }

    /// Gives a worker that is kept to a spare, since a gang has called its seat.
    pub fn serve(&self, pool: &Shared, index: usize) {
        self.serve_kept(pool, &mut lock(&self.state), index);
    }

    fn serve_kept(&self, pool: &Shared, state: &mut State, index: usize) {
        let Some(desk) = state.take_kept(index) else { return };
        match self.give(pool, state, Given { desk: Some(desk), job: None }, true) {
            Ok(()) => pool.seats[index].is_kept.store(false, SeqCst),
            Err(refused) => {
                state.kept.extend(refused.desk);
                self.has_failed.store(true, SeqCst);
                // Its thread tries again.
                pool.beds.unpark(index);
            }
        }
    }

    /// Returns whether the system has refused a thread. Then those that wait try again.
    pub fn has_failed(&self) -> bool {
        self.has_failed.load(SeqCst)
    }

    /// Returns the worker with this number to the thread that has kept it, if no other thread has
    /// it.
    pub fn get_back(&self, pool: &Shared, index: usize) -> Option<Box<Desk>> {
        let desk = lock(&self.state).take_kept(index)?;
        pool.seats[index].is_kept.store(false, SeqCst);
        Some(desk)
    }

    /// Returns what a thread without a worker does next, and sleeps until there is something.
    /// Returns `None` if the pool is over.
    pub fn next(&self, pool: &Shared, inbox: &Arc<Inbox>) -> Option<Given> {
        // What a new thread is given is there already.
        if let Some(given) = inbox.take() {
            return Some(given);
        }
        let mut state = lock(&self.state);
        if let Some(desk) = state.kept.pop() {
            pool.seats[desk.index].is_kept.store(false, SeqCst);
            return Some(Given { desk: Some(desk), job: None });
        }
        if !self.is_over.load(SeqCst) {
            state.idle.push(inbox.clone());
        }
        drop(state);
        loop {
            if let Some(given) = inbox.take() {
                return Some(given);
            }
            if self.is_over.load(SeqCst) && self.is_off(inbox) {
                return None;
            }
            thread::park();
        }
    }

    /// Takes a thread out of those that sleep, at the end. Returns whether nobody gives it
    /// anything.
    fn is_off(&self, inbox: &Arc<Inbox>) -> bool {
        let mut state = lock(&self.state);
        state.idle.retain(|other| !Arc::ptr_eq(other, inbox));
        drop(state);
        lock(&inbox.given).is_none()
    }

    /// Ends the threads that have no worker. No job is left in the queues.
    pub fn end(&self) {
        self.is_over.store(true, SeqCst);
        for inbox in &lock(&self.state).idle {
            inbox.thread.get().inspect(|thread| thread.unpark());
        }
    }

    /// Waits until the threads that were started have ended. Returns whether there was one.
    pub fn join(&self) -> bool {
        let mut has_joined = false;
        loop {
            let Some(handle) = lock(&self.state).handles.pop() else { return has_joined };
            // A thread ends without a panic: those of jobs end in the jobs.
            let _ = handle.join();
            has_joined = true;
        }
    }
}

impl Settings {
    /// Returns the name of the thread with this number. One that panics, or has a byte 0, is none.
    fn name_of(&self, number: usize) -> String {
        let name = catch_quietly(|| (self.name)(number)).unwrap_or_default();
        name.replace('\0', "")
    }
}

impl fmt::Debug for Settings {
    fn fmt(&self, f: &mut fmt::Formatter<'_>) -> fmt::Result {
        f.debug_struct("Settings")
            .field("max_threads", &self.max_threads)
            .field("stack_size", &self.stack_size)
            .finish_non_exhaustive()
    }
}
