//! Where workers sleep.
//!
//! The waker of the lanes says when a worker without a job may park (`find`), and which worker a
//! submit has woken. It knows one cause to get up, a job. The threads of a pool have another one: a
//! gang's call. Then the thread has something to do while its worker still lies down, and may be
//! named as the one that searches.
//!
//! So the thread leaves its worker in its *bed*. A thread whose call has woken the worker finds it
//! there. It makes the worker's search, and puts the job that it finds into a queue that goes
//! first. If the bed is empty, the worker is with its thread, which is unparked.

use crate::job::Job;
use crate::shared::Shared;
use crate::util::lock;
use cubejobs::lanes::{Finding, Found, Worker};
use std::sync::Mutex;
use std::thread::{self, Thread};

/// The bed of each worker, and the thread of each.
pub(crate) struct Beds {
    /// The workers whose threads have other work.
    left: Vec<Mutex<Option<Worker<u64>>>>,
    /// The thread that has the worker, or that had it last.
    threads: Vec<Mutex<Option<Thread>>>,
}

impl Beds {
    /// Makes the beds of this number of workers.
    pub fn new(size: usize) -> Self {
        Beds {
            left: (0..size).map(|_| Mutex::new(None)).collect(),
            threads: (0..size).map(|_| Mutex::new(None)).collect(),
        }
    }

    /// Makes this thread that of a worker. It looks for calls and for the worker's token
    /// afterwards, since others unpark the thread that was here before.
    pub fn settle(&self, number: usize) {
        *lock(&self.threads[number]) = Some(thread::current());
    }

    pub fn unpark(&self, number: usize) {
        if let Some(thread) = &*lock(&self.threads[number]) {
            thread.unpark();
        }
    }

    pub fn unpark_all(&self) {
        (0..self.threads.len()).for_each(|number| self.unpark(number));
    }

    /// Leaves a worker, which may lie down, in its bed. Returns it if it was woken: then its thread
    /// does the search.
    pub fn leave(&self, number: usize, mut worker: Worker<u64>) -> Option<Worker<u64>> {
        let mut bed = lock(&self.left[number]);
        // A worker has its token before a thread looks at its bed to wake it.
        if worker.awake() {
            return Some(worker);
        }
        *bed = Some(worker);
        None
    }

    /// Returns the worker that its thread has left. It may lie down.
    pub fn get_back(&self, number: usize) -> Worker<u64> {
        lock(&self.left[number]).take().expect("a worker is with its thread, or in its bed")
    }

    /// Wakes the threads of workers that were woken, or makes the searches of those workers.
    pub fn rouse(&self, pool: &Shared, woken: u32) {
        let mut woken = vec![woken];
        while let Some(number) = woken.pop() {
            let mut bed = lock(&self.left[number as usize]);
            match bed.as_mut() {
                // The bed is locked until the job is back, so that the worker cannot lie down again
                // before.
                Some(worker) => search(pool, worker, &mut woken),
                None => self.unpark(number as usize),
            }
        }
    }
}

/// Makes the search of a worker that was woken, and adds the workers that this wakes.
fn search(pool: &Shared, worker: &mut Worker<u64>, woken: &mut Vec<u32>) {
    if !worker.awake() {
        return;
    }
    loop {
        let Finding { found, woken: other } = worker.find(0);
        woken.extend(other);
        match found {
            Found::Job(job) => {
                let queue = [&pool.returned, &pool.overflow].into_iter().find(|it| it.number == job.lane);
                woken.extend(match queue {
                    Some(queue) => queue.return_token(),
                    None => {
                        pool.made_room(job.lane);
                        pool.returned.push_back(Job::taken(job))
                    }
                });
                return;
            }
            Found::Park | Found::Ended => return,
            Found::Again => {}
        }
    }
}
