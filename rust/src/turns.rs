//! The turns of a scheduler for threads: one call at a time, and threads that sleep between them.
//!
//! A mutex has the handle of the library and the jobs that wait. A call locks it for its turn, and
//! wakes other threads after that. So the library never answers that another thread has the turn.
//!
//! # Why no wake is lost
//!
//! A worker has a word, which only turns read or write. In the turn in which it asks for a job, it
//! first sets the word to `Awake`. If it gets none, it makes one more turn: it sleeps only if the
//! word is still `Awake`, and sets it to `Asleep`. A turn between the two that gives it a job, or
//! that ends all, sets the word to `Woken`. A later one finds `Asleep`, and wakes the thread.
//!
//! A submit that finds no place begins to sleep in the same turn. A turn that makes a place free
//! wakes one of these submits. It tries again, also if its deadline has passed.

use crate::sched_ffi::{self as ffi, Answer, Handle};
use crate::slab::Slab;
use alloc::boxed::Box;
use alloc::vec::Vec;
use core::mem::replace;
use core::panic::{RefUnwindSafe, UnwindSafe};
use std::sync::{Condvar, Mutex, MutexGuard, PoisonError};
use std::time::{Duration, Instant};

/// The mode of a close in which the jobs that wait do not start.
const COME_BACK: u32 = 1;

/// How long a call waits for a job or for a place.
#[derive(Clone, Copy)]
pub enum Limit {
    /// It does not wait.
    Now,
    /// It waits until this time.
    At(Instant),
    /// It waits without end.
    Never,
}

/// What a worker's word says.
#[derive(Clone, Copy, PartialEq)]
enum Word {
    Awake,
    Woken,
    Asleep,
}

/// What is known of a worker. `losses` is how often a worker of its number was lost.
struct Seat {
    losses: u64,
    is_out: bool,
    word: Word,
}

/// A worker. A lost one has another number of losses than its seat.
#[derive(Clone, Copy)]
pub struct Sitter {
    pub number: u32,
    losses: u64,
}

/// An open handle, or one that is not open yet, with its workers. A drop ends it.
struct Open {
    handle: Handle,
    seats: Vec<Seat>,
}

/// What one call at a time reads and changes.
pub struct Inner<J> {
    // It is dropped first, so a drop of a job that panics leaves nothing open.
    open: Open,
    /// The jobs that wait, and those whose workers have not seen them.
    pub jobs: Slab<J>,
    /// How many submits sleep.
    full: u32,
    /// No job waits in a slot before this one, once the scheduler is closed.
    rest_from: u32,
}

/// How many submits a call wakes.
#[derive(Clone, Copy, PartialEq)]
pub enum Frees {
    /// It has made no place free.
    Nothing,
    /// It has ended a job, so one may have its place.
    Place,
    /// It has closed the scheduler, so all return.
    All,
}

/// The threads that a turn wakes when it is over.
#[must_use = "threads sleep until they are woken"]
pub struct Wakes {
    named: [Option<u32>; 4],
    submits: Frees,
    has_changed: bool,
}

/// A call of the library about a worker.
type WorkerCall = fn(&mut Handle, u32, u64) -> Answer;
/// A function of the user.
type Hook = Box<dyn Fn() + Send + Sync>;

/// The turns of a scheduler.
pub struct Turns<J> {
    inner: Mutex<Inner<J>>,
    /// Where the threads of the workers sleep.
    beds: Vec<Condvar>,
    /// Where submits sleep.
    room: Condvar,
    /// Called after each turn that has changed something.
    pub hook: Option<Hook>,
    begin: Instant,
}

// No turn and no sleep calls what belongs to the user, so a panic leaves nothing half changed.
impl<J> UnwindSafe for Turns<J> {}
impl<J> RefUnwindSafe for Turns<J> {}

impl Limit {
    /// Returns the limit of a call that waits for at most this time from now on.
    pub fn after(timeout: Duration) -> Self {
        Instant::now().checked_add(timeout).map_or(Limit::Never, Limit::At)
    }

    /// Sleeps until the condition is notified. Returns whether the limit has passed before.
    fn sleep<'a, T>(self, on: &Condvar, guard: MutexGuard<'a, T>) -> (MutexGuard<'a, T>, bool) {
        let left = match self {
            Limit::Now => Duration::ZERO,
            Limit::At(end) => end.saturating_duration_since(Instant::now()),
            Limit::Never => return (on.wait(guard).unwrap_or_else(PoisonError::into_inner), false),
        };
        if left.is_zero() {
            return (guard, true);
        }
        (on.wait_timeout(guard, left).unwrap_or_else(PoisonError::into_inner).0, false)
    }
}

impl<J> Inner<J> {
    /// Opens a scheduler, or returns the code of the refusal.
    fn open(options: ffi::Options) -> Result<Self, u32> {
        let mut open = Open { handle: ffi::shut(), seats: Vec::new() };
        match ffi::open(&mut open.handle, options) {
            ffi::DONE => {}
            code => return Err(code),
        }
        let workers = options.workers as usize;
        open.seats.try_reserve_exact(workers).map_err(|_| ffi::OUT_OF_MEMORY)?;
        open.seats.resize_with(workers, || Seat { losses: 0, is_out: false, word: Word::Awake });
        let jobs = Slab::try_new(options.jobs as usize).ok_or(ffi::OUT_OF_MEMORY)?;
        Ok(Inner { open, jobs, full: 0, rest_from: 0 })
    }

    pub fn handle(&mut self) -> &mut Handle {
        &mut self.open.handle
    }

    /// Returns the seat of a worker. Returns `None` if the worker was lost.
    fn seat(&mut self, sitter: Sitter) -> Option<&mut Seat> {
        let seat = &mut self.open.seats[sitter.number as usize];
        (seat.losses == sitter.losses).then_some(seat)
    }

    fn is_asleep(&mut self, sitter: Sitter) -> bool {
        self.seat(sitter).is_some_and(|it| it.word == Word::Asleep)
    }

    /// Notes that workers got a job. Returns those that sleep.
    fn note(&mut self, answer: &Answer) -> [Option<u32>; 4] {
        let mut named = [None; 4];
        for (place, worker) in named.iter_mut().zip(answer.woken()).take(answer.count as usize) {
            let word = &mut self.open.seats[worker as usize].word;
            *place = (replace(word, Word::Woken) == Word::Asleep).then_some(worker);
        }
        named
    }
}

impl<J> Turns<J> {
    /// Opens a scheduler. Returns the code of the refusal if it is refused.
    pub fn open(options: ffi::Options) -> Result<Self, u32> {
        let inner = Inner::open(options)?;
        let mut beds = Vec::new();
        beds.try_reserve_exact(options.workers as usize).map_err(|_| ffi::OUT_OF_MEMORY)?;
        beds.resize_with(options.workers as usize, Condvar::new);
        let (inner, room) = (Mutex::new(inner), Condvar::new());
        Ok(Turns { inner, beds, room, hook: None, begin: Instant::now() })
    }

    /// Waits for the turn.
    pub fn lock(&self) -> MutexGuard<'_, Inner<J>> {
        self.inner.lock().unwrap_or_else(PoisonError::into_inner)
    }

    /// Returns the time, in nanoseconds since the scheduler was opened.
    pub fn now(&self) -> u64 {
        self.begin.elapsed().as_nanos().try_into().unwrap_or(ffi::NEVER).min(ffi::NEVER - 1)
    }

    /// Returns a time of the library as one of the clock, if it is known.
    pub fn instant(&self, time: u64) -> Option<Instant> {
        if time == ffi::NEVER {
            return None;
        }
        self.begin.checked_add(Duration::from_nanos(time))
    }

    /// Ends a turn that made a call: starts what else may start. Returns the threads to wake.
    pub fn settle(&self, inner: &mut Inner<J>, answer: &Answer, frees: Frees) -> Wakes {
        let mut named = inner.note(answer);
        let mut more = answer.more;
        while more != 0 {
            self.wake(named);
            let now = self.now();
            let effect = ffi::settle(inner.handle(), now);
            named = inner.note(&effect);
            more = effect.more;
        }
        if answer.over != 0 && frees != Frees::Nothing {
            self.wake_all(inner);
        }
        let submits = if inner.full == 0 { Frees::Nothing } else { frees };
        Wakes { named, submits, has_changed: frees != Frees::Nothing }
    }

    /// Wakes the threads that a turn concerns. It is called after the turn.
    pub fn finish(&self, wakes: Wakes) {
        self.wake(wakes.named);
        match wakes.submits {
            Frees::Nothing => {}
            Frees::Place => self.room.notify_one(),
            Frees::All => self.room.notify_all(),
        }
        if let Some(hook) = self.hook.as_ref().filter(|_| wakes.has_changed) {
            hook();
        }
    }

    fn wake(&self, named: [Option<u32>; 4]) {
        named.into_iter().flatten().for_each(|worker| self.beds[worker as usize].notify_one());
    }

    /// Wakes all workers that sleep, since no job will start any more.
    fn wake_all(&self, inner: &mut Inner<J>) {
        for (seat, bed) in inner.open.seats.iter_mut().zip(&self.beds) {
            if replace(&mut seat.word, Word::Woken) == Word::Asleep {
                bed.notify_one();
            }
        }
    }

    /// Makes a turn of a call that takes no job, and wakes the threads that it concerns. Returns
    /// the answer.
    pub fn make(&self, frees: Frees, call: impl FnOnce(&mut Handle, u64) -> Answer) -> Answer {
        let mut inner = self.lock();
        let answer = call(inner.handle(), self.now());
        if answer.code == ffi::DONE {
            let mut wakes = self.settle(&mut inner, &answer, frees);
            wakes.has_changed = true;
            drop(inner);
            self.finish(wakes);
        }
        answer
    }

    /// Submits a job, or returns it with the code of the refusal.
    pub fn submit(&self, job: J, mut asked: ffi::Request, limit: Limit) -> Result<u64, (u32, J)> {
        let mut inner = self.lock();
        let mut is_last = matches!(limit, Limit::Now);
        loop {
            asked.payload = inner.jobs.next_number();
            let answer = ffi::submit(inner.handle(), asked, self.now());
            if answer.code == ffi::DONE {
                inner.jobs.add(job);
                let mut wakes = self.settle(&mut inner, &answer, Frees::Nothing);
                wakes.has_changed = true;
                drop(inner);
                self.finish(wakes);
                return Ok(answer.ticket);
            }
            if answer.code != ffi::FULL || is_last {
                return Err((answer.code, job));
            }
            inner.full += 1;
            (inner, is_last) = limit.sleep(&self.room, inner);
            inner.full -= 1;
        }
    }

    /// Makes a turn of a call that may take a job, and wakes the threads that it concerns. Returns
    /// the job, or the code.
    pub fn take(
        &self,
        frees: Frees,
        call: impl FnOnce(&mut Inner<J>, u64) -> Answer,
    ) -> Result<(J, Answer), u32> {
        let mut inner = self.lock();
        let answer = call(&mut inner, self.now());
        let wakes = self.settle(&mut inner, &answer, frees_if(answer.code == ffi::DONE, frees));
        let job = (answer.code == ffi::DONE).then(|| inner.jobs.take(answer.payload));
        drop(inner);
        self.finish(wakes);
        job.map(|it| (it, answer)).ok_or(answer.code)
    }

    /// Returns a job that waits in a closed scheduler.
    pub fn rest(&self) -> Option<J> {
        let rest = |inner: &mut Inner<J>, _| {
            let answer = ffi::rest(&mut inner.open.handle, inner.rest_from);
            if answer.code == ffi::DONE {
                // No job begins to wait any more, so the slots before this one stay without.
                inner.rest_from = answer.worker + 1;
            }
            answer
        };
        self.take(Frees::Nothing, rest).ok().map(|it| it.0)
    }

    /// Makes a thread a worker. Returns the code of the refusal if it is refused.
    pub fn sit(&self) -> Result<Sitter, u32> {
        let mut inner = self.lock();
        let answer = ffi::worker(inner.handle());
        if answer.code != ffi::DONE {
            return Err(answer.code);
        }
        let seat = &mut inner.open.seats[answer.worker as usize];
        seat.is_out = true;
        Ok(Sitter { number: answer.worker, losses: seat.losses })
    }

    /// Ends the job of a worker, if it has one, and returns its next one. Else returns the code.
    /// `WRONG_STATE` says that the worker was lost. With each other code it waits no longer.
    pub fn next(&self, sitter: Sitter, mut has_job: bool, limit: Limit) -> Result<(J, Answer), u32> {
        let mut is_last = matches!(limit, Limit::Now);
        loop {
            let frees = frees_if(replace(&mut has_job, false), Frees::Place);
            let code = match self.ask(sitter, frees, ffi::next) {
                Err(code) => code,
                found => return found,
            };
            match code {
                ffi::NO_JOB if !is_last => is_last = self.doze(sitter, limit),
                ffi::NO_JOB | ffi::CLOSED => {
                    // A job that was given to it meanwhile is returned.
                    return self.ask(sitter, Frees::Nothing, ffi::give_up).map_err(|_| code);
                }
                code => return Err(code),
            }
        }
    }

    /// Makes one call of a worker for a job. Returns the job, or the code.
    fn ask(&self, sitter: Sitter, frees: Frees, call: WorkerCall) -> Result<(J, Answer), u32> {
        let mut inner = self.lock();
        inner.seat(sitter).ok_or(ffi::WRONG_STATE)?.word = Word::Awake;
        let answer = call(inner.handle(), sitter.number, self.now());
        let wakes = self.settle(&mut inner, &answer, frees);
        let job = (answer.code == ffi::DONE).then(|| inner.jobs.take(answer.payload));
        drop(inner);
        self.finish(wakes);
        job.map(|it| (it, answer)).ok_or(answer.code)
    }

    /// Sleeps unless the worker was woken since it asked. Returns whether the limit has passed.
    fn doze(&self, sitter: Sitter, limit: Limit) -> bool {
        let mut inner = self.lock();
        let mut is_late = false;
        if let Some(seat) = inner.seat(sitter).filter(|it| it.word == Word::Awake) {
            seat.word = Word::Asleep;
        }
        while !is_late && inner.is_asleep(sitter) {
            (inner, is_late) = limit.sleep(&self.beds[sitter.number as usize], inner);
        }
        is_late
    }

    /// Ends the job of a worker. It does nothing if the worker was lost.
    pub fn done(&self, sitter: Sitter) {
        self.end(sitter, Frees::Place, ffi::done, true);
    }

    /// Ends the job of a worker, if it has one, and the worker. It does nothing if it was lost.
    pub fn leave(&self, sitter: Sitter, has_job: bool) {
        self.end(sitter, frees_if(has_job, Frees::Place), ffi::leave, false);
    }

    fn end(&self, sitter: Sitter, frees: Frees, call: WorkerCall, stays: bool) {
        let mut inner = self.lock();
        let Some(seat) = inner.seat(sitter) else { return };
        seat.is_out = stays;
        let answer = call(inner.handle(), sitter.number, self.now());
        assert_eq!(answer.code, ffi::DONE, "a job that runs can end, and its worker can leave");
        let wakes = self.settle(&mut inner, &answer, frees);
        drop(inner);
        self.finish(wakes);
    }

    /// Gives back a worker that is lost. Returns the job that was given to it, if its thread has
    /// not seen it. Returns `WRONG_STATE` if no such worker is out.
    pub fn lost(&self, number: u32) -> Result<Option<J>, u32> {
        let mut inner = self.lock();
        let seat = inner.open.seats.get_mut(number as usize).filter(|it| it.is_out);
        let seat = seat.ok_or(ffi::WRONG_STATE)?;
        (seat.is_out, seat.word) = (false, Word::Woken);
        seat.losses += 1;
        self.beds[number as usize].notify_all();
        let given = ffi::give_up(inner.handle(), number, self.now());
        let first = self.settle(&mut inner, &given, Frees::Nothing);
        let job = (given.code == ffi::DONE).then(|| inner.jobs.take(given.payload));
        let answer = ffi::lost(inner.handle(), number, self.now());
        let wakes = self.settle(&mut inner, &answer, Frees::Place);
        drop(inner);
        self.finish(first);
        self.finish(wakes);
        Ok(job)
    }
}

/// Returns what a call frees if it ended something.
fn frees_if(is_so: bool, frees: Frees) -> Frees {
    if is_so {
        frees
    } else {
        Frees::Nothing
    }
}

impl Drop for Open {
    fn drop(&mut self) {
        let Open { handle, seats } = self;
        ffi::close(handle, COME_BACK, 0);
        for (number, _) in seats.iter().enumerate().filter(|it| it.1.is_out) {
            ffi::lost(handle, number as u32, 0);
        }
        let mut rest = ffi::rest(handle, 0);
        while rest.code == ffi::DONE {
            rest = ffi::rest(handle, rest.worker + 1);
        }
        ffi::free(handle);
    }
}
