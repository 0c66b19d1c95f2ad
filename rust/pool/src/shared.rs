//! What the threads of a pool share.

use crate::beds::Beds;
use crate::client::Producer;
use crate::current;
use crate::error::{Cancelled, Reason};
use crate::gang::Gang;
use crate::group::Group;
use crate::job::Job;
use crate::outside::Outside;
use crate::overflow::Overflow;
use crate::placer::Placer;
use crate::room::Room;
use crate::seat::Seat;
use crate::spares::Spares;
use crate::util::{drop_quietly, lock, Padded};
use cubejobs::lanes::{Accepted, Lanes, Payload, Refused, SubmitError};
use std::collections::BTreeMap;
use std::panic::{RefUnwindSafe, UnwindSafe};
use std::sync::atomic::{AtomicBool, AtomicUsize, Ordering::SeqCst};
use std::sync::{Arc, Condvar, Mutex, PoisonError, Weak};
use std::thread;
use std::time::Duration;

/// How often a thread whose lane is full lets others go on, before it sleeps.
const YIELDS: u32 = 4;

/// The word of a gang in its lane.
pub(crate) type GangWord = Box<Gang>;

/// What a submit has done.
pub(crate) type Submitted<P> = Result<Accepted, Refused<SubmitError, P>>;

/// How a member looks before it sleeps: this number of times, and longer while that pays.
#[derive(Clone, Copy, Debug)]
pub(crate) struct Looks {
    pub short: u32,
    pub long: Duration,
}

/// The first lane of one-worker jobs is that of jobs that have come back. The others are, in the
/// order of their numbers, that of the overflow, those that threads share, those of clients, and
/// one for each worker. The lanes of gangs are those that threads share, and those of clients.
pub(crate) struct Shared {
    pub me: Weak<Shared>,
    pub number: usize,
    pub dim: u32,
    pub ones: Lanes<u64>,
    pub gangs: Lanes<GangWord>,
    pub outside_ones: Outside<u64>,
    pub outside_gangs: Outside<GangWord>,
    /// The lanes of clients that are not out.
    pub producers: Mutex<Vec<Producer>>,
    /// The jobs that have come back, which go first, and those for which a worker's lane had no
    /// room.
    pub returned: Overflow,
    pub overflow: Overflow,
    /// How many jobs a lane holds.
    pub capacity: usize,
    /// The number of lanes of one-worker jobs, and the number of the lane of worker 0.
    pub lane_count: u32,
    pub first_own: u32,
    /// A room for each lane that threads share or a client has, for one-worker jobs and for gangs.
    pub rooms: Vec<Padded<Room>>,
    pub gang_rooms: Vec<Padded<Room>>,
    pub beds: Beds,
    pub seats: Vec<Padded<Seat>>,
    pub spares: Spares,
    pub placer: Mutex<Placer>,
    /// The number of gangs that were accepted and have not ended, and of those that are submitted.
    pub live: Padded<AtomicUsize>,
    /// The number of threads of other pools that run jobs of this one.
    pub guests: Mutex<usize>,
    pub guest_left: Condvar,
    pub is_closed: AtomicBool,
    pub is_cancelled: AtomicBool,
    pub looks: Looks,
}

/// The pools that live, by their numbers.
static POOLS: Mutex<BTreeMap<usize, Weak<Shared>>> = Mutex::new(BTreeMap::new());

/// Returns a number that no other pool has.
pub(crate) fn next_number() -> usize {
    static NEXT: AtomicUsize = AtomicUsize::new(0);
    NEXT.fetch_add(1, SeqCst)
}

/// Returns the pool with this number, if it lives.
pub(crate) fn pool_of(number: usize) -> Option<Arc<Shared>> {
    lock(&POOLS).get(&number)?.upgrade()
}

// The panic of a job is caught where the job is called, so it ends no call that changes what is here.
impl UnwindSafe for Shared {}
impl RefUnwindSafe for Shared {}

impl Shared {
    /// Lists the pool, so that `pool_of` finds it.
    pub fn list(&self) {
        lock(&POOLS).insert(self.number, self.me.clone());
    }

    /// Returns a share for a new thread.
    pub fn share(&self) -> Arc<Shared> {
        self.me.upgrade().expect("the caller has a share")
    }

    pub fn size(&self) -> usize {
        self.seats.len()
    }

    pub fn lane_of_worker(&self, index: usize) -> u32 {
        self.first_own + index as u32
    }

    /// Calls a thread that sleeps until this lane of one-worker jobs has room, after a take.
    pub fn made_room(&self, lane: u32) {
        let place = lane.checked_sub(self.overflow.number + 1);
        if let Some(room) = place.and_then(|place| self.rooms.get(place as usize)) {
            room.made();
        }
    }

    /// Runs a job that was taken, or drops it if the pool was closed at once.
    pub fn begin(&self, job: Job) {
        if self.is_cancelled.load(SeqCst) {
            drop_quietly(job);
        } else {
            job.run();
        }
    }

    /// Makes a call of a thread of another pool, by which it runs a job of this pool.
    pub fn host<R>(&self, call: impl FnOnce() -> R) -> R {
        *lock(&self.guests) += 1;
        let result = call();
        *lock(&self.guests) -= 1;
        self.guest_left.notify_all();
        result
    }

    /// Waits until all threads of the pool have ended, and all jobs.
    pub fn wait_for_end(&self) {
        while self.spares.join() {
            let mut guests = lock(&self.guests);
            while *guests != 0 {
                guests = self.guest_left.wait(guests).unwrap_or_else(PoisonError::into_inner);
            }
        }
    }

    /// Wakes the worker that a call has woken.
    pub fn rouse(&self, woken: Option<u32>) {
        if let Some(woken) = woken {
            self.beds.rouse(self, woken);
        }
    }

    /// Takes a job that no lane has, after the end of the lanes.
    pub fn take_last(&self) -> Option<Job> {
        self.overflow.take().0.or_else(|| self.returned.take().0)
    }

    /// Wakes the worker that an accepted submit names. Otherwise returns the reason, and what was
    /// submitted.
    fn settle<P: Payload>(&self, submitted: Submitted<P>) -> Result<(), (Reason, Refused<SubmitError, P>)> {
        match submitted {
            Ok(accepted) => {
                self.rouse(accepted.woken);
                Ok(())
            }
            Err(refused) => Err((reason_of(refused.reason), refused)),
        }
    }

    /// Wakes a worker, or returns the job with the reason.
    fn settle_own(&self, submitted: Result<Option<u32>, (SubmitError, Job)>) -> Result<(), (Reason, Job)> {
        let woken = submitted.map_err(|(error, job)| (reason_of(error), job))?;
        self.rouse(woken);
        Ok(())
    }

    /// Submits a job, without a wait for room. Returns it if it was not accepted.
    pub fn try_submit_one(&self, job: Job) -> Result<(), (Reason, Job)> {
        if self.is_closed.load(SeqCst) {
            return Err((Reason::Closed, job));
        }
        match current::of(self) {
            Some(local) => self.settle_own(local.try_submit(job)),
            None => self.submit_from_outside(job, false),
        }
    }

    /// Submits a job. If the lane is full, that of a worker of any pool goes to the overflow, and
    /// another thread sleeps until there is room. Returns the job if the pool is closed.
    pub fn submit_one(&self, job: Job) -> Result<(), Job> {
        if self.is_closed.load(SeqCst) {
            return Err(job);
        }
        let local = current::of(self);
        let submitted = match &local {
            Some(local) if local.skips_lane() => Err((Reason::Full, job)),
            Some(local) => self.settle_own(local.try_submit(job)),
            None => self.submit_from_outside(job, !current::is_worker()),
        };
        match submitted {
            Err((Reason::Full, job)) => {
                self.rouse(self.overflow.push(job)?);
                Ok(())
            }
            other => other.map_err(|(_, job)| job),
        }
    }

    /// Submits a job to a lane that threads share. If it is full, this thread sleeps until there is
    /// room, if it may wait.
    fn submit_from_outside(&self, job: Job, may_wait: bool) -> Result<(), (Reason, Job)> {
        let place = self.outside_ones.place();
        let submit = |word| self.outside_ones.submit(place, word);
        let mut submitted = submit(job.into_word());
        if may_wait {
            submitted = wait_for_room(&self.rooms[place], submitted, submit);
        }
        self.settle(submitted).map_err(|(reason, refused)| (reason, Job::refused(refused)))
    }

    /// Submits a job by a client. If its lane is full, a thread that is no worker sleeps until
    /// there is room, if it may wait. Returns the job if it was not accepted.
    pub fn submit_by_client(
        &self,
        producer: &mut Producer,
        job: Job,
        may_wait: bool,
    ) -> Result<(), (Reason, Job)> {
        if self.is_closed.load(SeqCst) {
            return Err((Reason::Closed, job));
        }
        let Producer { place, ones, .. } = producer;
        let mut submitted = ones.submit(job.into_word(), 0);
        if may_wait && !current::is_worker() {
            submitted = wait_for_room(&self.rooms[*place], submitted, |word| ones.submit(word, 0));
        }
        self.settle(submitted).map_err(|(reason, refused)| (reason, Job::refused(refused)))
    }

    /// Submits a gang to a lane that threads share, as `submit_gang_by` does.
    pub fn submit_gang(&self, gang: Gang, wait: Wait) -> Result<(), (Reason, GangWord)> {
        let place = self.outside_gangs.place();
        self.submit_gang_by(gang, place, wait, |gang| self.outside_gangs.submit(place, gang))
    }

    /// Submits a gang by a call, to the lane of a place. If it is full, the thread sleeps until
    /// there is room, if it may wait. Returns the gang if it was not accepted.
    pub fn submit_gang_by(
        &self,
        gang: Gang,
        place: usize,
        wait: Wait,
        mut submit: impl FnMut(GangWord) -> Submitted<GangWord>,
    ) -> Result<(), (Reason, GangWord)> {
        self.live.fetch_add(1, SeqCst);
        let mut submitted = submit(Box::new(gang));
        let is_full = submitted.as_ref().is_err_and(is_full);
        if is_full && (wait == Wait::Always || wait == Wait::Outside && !current::is_worker()) {
            submitted = current::asleep(|| wait_for_room(&self.gang_rooms[place], submitted, submit));
        }
        // No worker of these lanes sleeps, so a submit wakes none.
        let result = self.settle(submitted).map_err(|(reason, refused)| (reason, refused.payload));
        match result {
            Ok(()) => self.place(),
            Err(_) => self.count_ended(),
        }
        result
    }

    /// Gives blocks to gangs, and calls their members.
    pub fn place(&self) {
        let mut placer = lock(&self.placer);
        let is_cancelled = self.is_cancelled.load(SeqCst);
        let dropped = if is_cancelled { placer.give_up(&self.gang_rooms) } else { Vec::new() };
        let ready = placer.place(&self.seats, &self.gang_rooms);
        drop(placer);
        ready.into_iter().for_each(|gang| self.call(&gang));
        for gang in dropped {
            gang.cancel(Box::new(Cancelled));
            self.count_ended();
        }
    }

    /// Calls the members of a gang that has its block.
    fn call(&self, gang: &Arc<Gang>) {
        let base = gang.base.load(SeqCst);
        for index in base..base + gang.size() {
            let seat = &self.seats[index];
            seat.call(gang.clone());
            self.beds.unpark(index);
            if seat.is_kept.load(SeqCst) {
                self.spares.serve(self, index);
            }
        }
    }

    /// Runs the part of this worker in the gang that has called it.
    pub fn serve(&self, index: usize) {
        let gang = self.seats[index].answer();
        let base = gang.base.load(SeqCst);
        let group = Group::new(self, &gang, index);
        gang.run_member(&group);
        group.leave();
        if gang.go() {
            let has_failed = gang.has_failed.load(SeqCst);
            for seat in &self.seats[base..base + gang.size()] {
                seat.clear(has_failed);
            }
            let end = gang.finish();
            self.place();
            end();
            self.count_ended();
        }
    }

    /// Counts a gang as one that has ended.
    fn count_ended(&self) {
        self.live.fetch_sub(1, SeqCst);
        self.end_if_over();
    }

    /// Closes the lanes of one-worker jobs if the pool is closed and no gang lives. Then the
    /// threads end.
    fn end_if_over(&self) {
        if self.is_closed.load(SeqCst) && self.live.load(SeqCst) == 0 {
            self.overflow.close();
            self.ones.close();
            self.rooms.iter().for_each(|room| room.call_all());
            self.beds.unpark_all();
        }
    }

    /// Accepts no job any more. If `at_once`, jobs that have not begun are dropped.
    pub fn close(&self, at_once: bool) {
        self.is_cancelled.fetch_or(at_once, SeqCst);
        self.is_closed.store(true, SeqCst);
        self.gangs.close();
        self.gang_rooms.iter().for_each(|room| room.call_all());
        self.place();
        self.end_if_over();
    }
}

impl Drop for Shared {
    fn drop(&mut self) {
        lock(&POOLS).remove(&self.number);
    }
}

/// Which threads sleep until a lane of gangs has room.
#[derive(Clone, Copy, PartialEq, Eq)]
pub(crate) enum Wait {
    Never,
    /// Those that are no workers of a pool.
    Outside,
    Always,
}

fn reason_of(error: SubmitError) -> Reason {
    match error {
        SubmitError::Full => Reason::Full,
        _ => Reason::Closed,
    }
}

fn is_full<P>(refused: &Refused<SubmitError, P>) -> bool {
    refused.reason == SubmitError::Full
}

/// Submits again what a full lane has refused, until there is room.
fn wait_for_room<P: Payload>(
    room: &Room,
    submitted: Submitted<P>,
    mut submit: impl FnMut(P) -> Submitted<P>,
) -> Submitted<P> {
    let mut result = submitted;
    for _ in 0..YIELDS {
        match result {
            Err(refused) if is_full(&refused) => result = submit(refused.payload),
            other => return other,
        }
        thread::yield_now();
    }
    let mut last = Some(result);
    room.wait(|| match last.take()? {
        Err(refused) if is_full(&refused) => match submit(refused.payload) {
            Err(refused) if is_full(&refused) => {
                last = Some(Err(refused));
                None
            }
            other => Some(other),
        },
        other => Some(other),
    })
}
