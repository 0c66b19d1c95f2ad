//! A queue of jobs without a limit: two lists under locks, and a lane with a token.
//!
//! The waker of the lanes knows of jobs in lanes only. So the lane has a token while the lists have
//! jobs. A worker that takes the token takes the first job, and puts a token back if there are
//! others. A thread that submits has another lock than workers that take.

use crate::job::Job;
use crate::util::{lock, Padded};
use cubejobs::lanes::Lane;
use std::collections::VecDeque;
use std::mem;
use std::sync::atomic::{AtomicBool, AtomicUsize, Ordering::Relaxed, Ordering::SeqCst};
use std::sync::Mutex;

/// The word of a token. No job has it.
const TOKEN: u64 = 0;

/// How many jobs must have begun before they were taken, until those in the list are looked for.
pub(crate) const LEAST_PRUNED: usize = 64;

/// How many jobs a worker moves to its lane at most when it takes one.
const MOST_MOVED: usize = 64;

pub(crate) struct Overflow {
    /// The number of the lane.
    pub number: u32,
    /// The first jobs. A worker that finds none here takes all of the other list.
    front: Padded<Mutex<VecDeque<Job>>>,
    back: Padded<Mutex<Back>>,
    /// Whether the lists may have jobs. It is cleared under both locks.
    has_jobs: Padded<AtomicBool>,
    /// Whether the lane has a token, or a worker is about to put one.
    has_token: AtomicBool,
    /// How many jobs of the pool have begun before they were taken, since the last look for them.
    begun_early: AtomicUsize,
}

/// The lane, and the jobs that came last.
struct Back {
    lane: Lane<u64>,
    list: VecDeque<Job>,
    is_closed: bool,
}

impl Overflow {
    /// Makes a queue over the lane with this number.
    pub fn new(lane: Lane<u64>, number: u32) -> Self {
        Overflow {
            number,
            front: Padded::default(),
            back: Padded(Mutex::new(Back { lane, list: VecDeque::new(), is_closed: false })),
            has_jobs: Padded::default(),
            has_token: AtomicBool::new(false),
            begun_early: AtomicUsize::new(0),
        }
    }

    /// Counts jobs that have begun before they were taken. They may be in a list, if it has some.
    pub fn count_early(&self, count: usize) {
        if self.has_jobs() {
            self.begun_early.fetch_add(count, Relaxed);
        }
    }

    /// Returns whether the lists may have jobs.
    pub fn has_jobs(&self) -> bool {
        self.has_jobs.load(SeqCst)
    }

    /// Returns the number of jobs in the lists.
    pub fn len(&self) -> usize {
        let first = lock(&self.front).len();
        first + lock(&self.back).list.len()
    }

    /// Puts a job at the end. Returns the worker that this has woken, or the job if the queue is
    /// closed.
    pub fn push(&self, job: Job) -> Result<Option<u32>, Job> {
        let mut back = lock(&self.back);
        if back.is_closed {
            return Err(job);
        }
        Ok(self.push_to(&mut back, job))
    }

    /// Puts a job at the end, even if the queue is closed. Returns the worker that this has woken.
    pub fn push_back(&self, job: Job) -> Option<u32> {
        self.push_to(&mut lock(&self.back), job)
    }

    fn push_to(&self, back: &mut Back, job: Job) -> Option<u32> {
        back.list.push_back(job);
        // Each job that has begun early pays for a look at two jobs of the list.
        if self.begun_early.load(Relaxed) >= LEAST_PRUNED.max(back.list.len() / 2) {
            self.begun_early.store(0, Relaxed);
            back.list.retain(|job| !job.has_begun());
        }
        // Workers read this often, so it is written only if it changes.
        if !self.has_jobs() {
            self.has_jobs.store(true, SeqCst);
        }
        self.put_token(back)
    }

    /// Puts a token into the lane if it has none. Returns the worker that this has woken. A closed
    /// lane gets none: then workers look at the lists.
    fn put_token(&self, back: &mut Back) -> Option<u32> {
        if self.has_token.load(SeqCst) || self.has_token.swap(true, SeqCst) {
            return None;
        }
        match back.lane.submit(TOKEN, 0) {
            Ok(accepted) => accepted.woken,
            Err(_) => {
                self.has_token.store(false, SeqCst);
                None
            }
        }
    }

    /// Takes the first job that has not begun. Returns it with the worker that this has woken.
    pub fn take(&self) -> (Option<Job>, Option<u32>) {
        self.take_with(0, Err)
    }

    /// Takes the first job, as `take` does. Moves some of the next ones by a call: one `share` of
    /// them, and no more than it accepts.
    pub fn take_with(
        &self,
        share: usize,
        mut accept: impl FnMut(Job) -> Result<(), Job>,
    ) -> (Option<Job>, Option<u32>) {
        let mut front = lock(&self.front);
        let first = self.take_first(&mut front);
        for _ in 0..front.len().checked_div(share).unwrap_or(0).min(MOST_MOVED) {
            let Some(job) = front.pop_front() else { break };
            if let Err(job) = accept(job) {
                front.push_front(job);
                break;
            }
        }
        drop(front);
        (first, self.put_token_back())
    }

    fn take_first(&self, front: &mut VecDeque<Job>) -> Option<Job> {
        let mut found = None;
        while found.is_none() {
            found = front.pop_front().filter(|job| !job.has_begun());
            if front.is_empty() {
                let mut back = lock(&self.back);
                mem::swap(front, &mut back.list);
                if front.is_empty() {
                    self.has_jobs.store(false, SeqCst);
                    break;
                }
            }
        }
        found
    }

    /// Says that a worker has taken the token from the lane.
    pub fn took_token(&self) {
        self.has_token.store(false, SeqCst);
    }

    /// Puts back the token that was taken from the lane. Returns the worker that this has woken.
    pub fn return_token(&self) -> Option<u32> {
        self.has_token.store(false, SeqCst);
        self.put_token_back()
    }

    fn put_token_back(&self) -> Option<u32> {
        if !self.has_jobs() || self.has_token.load(SeqCst) {
            return None;
        }
        self.put_token(&mut lock(&self.back))
    }

    /// Closes the queue: it accepts no job any more.
    pub fn close(&self) {
        lock(&self.back).is_closed = true;
    }
}
