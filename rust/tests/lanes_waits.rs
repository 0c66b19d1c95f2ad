//! Submits to full lanes that sleep: until there is a place, a deadline or a close. Random calls of
//! many threads lose no job, and no wake.
//!
//! `LANES_ROUNDS` is the number of random rounds, and `LANES_SEED` where the random numbers begin.

use cubejobs::lanes::{Lane, Lanes, Sizes, SubmitError, TakeError, Worker};
use limit::limited;
use std::env;
use std::sync::atomic::{AtomicU8, Ordering::SeqCst};
use std::thread;
use std::time::{Duration, Instant};

mod limit;

/// A time in which other threads go to sleep, most often.
const MOMENT: Duration = Duration::from_millis(30);

fn open(lanes: u32, workers: u32, capacity: u64) -> Lanes<Box<u64>> {
    Lanes::new(Sizes { lanes, workers, capacity }).unwrap()
}

#[test]
fn a_submit_sleeps_until_there_is_a_place() {
    let _limited = limited(60);
    let lanes = open(1, 1, 1);
    let (mut lane, mut worker) = (lanes.lane().unwrap(), lanes.worker().unwrap());
    lane.submit_or_wait(Box::new(0), 5).unwrap();
    for take in [
        |worker: &mut Worker<Box<u64>>| worker.take(0).unwrap(),
        |worker: &mut Worker<Box<u64>>| worker.take_any(0).unwrap(),
        |worker: &mut Worker<Box<u64>>| worker.next().unwrap(),
    ] {
        let began = Instant::now();
        let sleeper = thread::spawn(move || {
            assert!(lane.submit_or_wait(Box::new(7), 6).is_ok());
            (lane, Instant::now())
        });
        thread::sleep(MOMENT);
        drop(take(&mut worker));
        let (it, ended) = sleeper.join().unwrap();
        assert!(ended - began >= MOMENT);
        lane = it;
    }
    let job = worker.take(0).unwrap();
    assert_eq!((*job.payload, job.dim, job.seq), (7, 6, 3));
}

#[test]
fn a_submit_times_out() {
    let _limited = limited(60);
    let lanes = open(1, 1, 1);
    let (mut lane, mut worker) = (lanes.lane().unwrap(), lanes.worker().unwrap());
    lane.submit_timeout(Box::new(0), 0, Duration::ZERO).unwrap();
    for timeout in [Duration::ZERO, MOMENT] {
        let began = Instant::now();
        let refused = lane.submit_timeout(Box::new(7), 0, timeout).unwrap_err();
        assert_eq!((refused.reason, *refused.payload), (SubmitError::TimedOut, 7));
        assert!(began.elapsed() >= timeout);
    }
    worker.take(0).unwrap();
    assert!(lane.submit_timeout(Box::new(8), 0, Duration::MAX).is_ok());
    assert_eq!(SubmitError::TimedOut.to_string(), "the lane was full for all of the time");
}

#[test]
fn a_close_ends_a_submit_that_sleeps() {
    let _limited = limited(60);
    let lanes = open(1, 1, 1);
    let mut lane = lanes.lane().unwrap();
    lane.submit(Box::new(0), 0).unwrap();
    let sleeper = thread::spawn(move || lane.submit_or_wait(Box::new(7), 0).unwrap_err());
    thread::sleep(MOMENT);
    lanes.close();
    let refused = sleeper.join().unwrap();
    assert_eq!((refused.reason, *refused.payload), (SubmitError::Closed, 7));
}

/// A lane has one place, and a worker that never sleeps. So the place often becomes free just as a
/// submit falls asleep.
#[test]
fn a_place_that_becomes_free_meanwhile_is_seen() {
    const JOBS: u64 = 100_000;
    let _limited = limited(60);
    let lanes = open(1, 1, 1);
    let (mut lane, mut worker) = (lanes.lane().unwrap(), lanes.worker().unwrap());
    let taker = thread::spawn(move || {
        let mut sum = 0;
        loop {
            match worker.take(0) {
                Ok(job) => sum += *job.payload,
                Err(TakeError::Ended) => return sum,
                Err(_) => std::hint::spin_loop(),
            }
        }
    });
    (0..JOBS).for_each(|number| assert!(lane.submit_or_wait(Box::new(number), 0).is_ok()));
    lanes.close();
    assert_eq!(taker.join().unwrap(), JOBS * (JOBS - 1) / 2);
}

struct Random(u64);

impl Random {
    fn below(&mut self, bound: u64) -> u64 {
        self.0 ^= self.0 << 13;
        self.0 ^= self.0 >> 7;
        self.0 ^= self.0 << 17;
        (self.0 >> 16) % bound
    }

    /// Returns a time of up to some microseconds, which is often none.
    fn time(&mut self) -> Duration {
        Duration::from_micros(self.below(2) * self.below(200))
    }
}

/// Submits the jobs of these numbers by random calls. A job that is refused is tried again, unless
/// the lanes are closed.
fn submit(mut lane: Lane<Box<u64>>, jobs: std::ops::Range<u64>, refused: &AtomicU8, mut random: Random) {
    for job in jobs {
        let mut payload = Box::new(job);
        loop {
            let submitted = match random.below(4) {
                0 => lane.submit(payload, 0),
                1 => lane.submit_timeout(payload, 0, random.time()),
                _ => lane.submit_or_wait(payload, 0),
            };
            let Err(it) = submitted else { break };
            assert_eq!(*it.payload, job);
            if it.reason == SubmitError::Closed {
                refused.fetch_add(1, SeqCst);
                return;
            }
            payload = it.payload;
        }
    }
}

/// Takes jobs by random calls, until the lanes end or `most` jobs were taken.
fn work(mut worker: Worker<Box<u64>>, lanes: u32, most: u64, taken: &[AtomicU8], mut random: Random) {
    for _ in 0..most {
        let job = loop {
            let found = match random.below(4) {
                0 => worker.take(random.below(u64::from(lanes)) as u32),
                1 => worker.take_any(random.below(u64::from(lanes)) as u32),
                _ => worker.next().ok_or(TakeError::Ended),
            };
            match found {
                Ok(job) => break job,
                // One lane has ended, and another one may have a job.
                Err(TakeError::Ended) => match worker.next() {
                    Some(job) => break job,
                    None => return,
                },
                Err(TakeError::Empty | TakeError::Lost) => thread::yield_now(),
                Err(error) => panic!("{error}"),
            }
        };
        assert_eq!(taken[*job.payload as usize].fetch_add(1, SeqCst), 0, "a job was taken twice");
        thread::sleep(random.time() / 8);
    }
}

#[test]
fn random_calls_lose_no_job_and_no_wake() {
    const JOBS: u64 = 400;
    let number = |name, otherwise| env::var(name).map_or(otherwise, |it| it.parse().unwrap());
    let (seed, mut closed) = (number("LANES_SEED", 1), 0);
    for round in 0..number("LANES_ROUNDS", 60) {
        let _limited = limited(60);
        let mut random = Random(seed * 1_000_003 + round * 7919 + 88_172_645);
        let (count, workers) = (1 + random.below(4) as u32, 1 + random.below(4) as u32);
        // In one of four rounds the workers leave early, and a close ends the submits that sleep.
        let leaves = random.below(4) == 0;
        let lanes = open(count, workers, 1 + random.below(4));
        let taken: Vec<AtomicU8> = (0..JOBS * u64::from(count)).map(|_| AtomicU8::new(0)).collect();
        let refused = AtomicU8::new(0);
        thread::scope(|scope| {
            let (taken, refused) = (&taken[..], &refused);
            let producers: Vec<_> = (0..u64::from(count))
                .map(|it| {
                    let (lane, random) = (lanes.lane().unwrap(), Random(random.0 ^ (it + 1)));
                    scope.spawn(move || submit(lane, it * JOBS..(it + 1) * JOBS, refused, random))
                })
                .collect();
            for it in 0..u64::from(workers) {
                let (worker, random) = (lanes.worker().unwrap(), Random(random.0 ^ (it + 100)));
                let most = if leaves { 20 } else { u64::MAX };
                scope.spawn(move || work(worker, count, most, taken, random));
            }
            if leaves {
                thread::sleep(random.time() * 100);
            } else {
                producers.into_iter().for_each(|it| it.join().unwrap());
            }
            lanes.close();
        });
        for job in lanes.finish().unwrap() {
            assert_eq!(taken[*job.payload as usize].fetch_add(1, SeqCst), 0, "a job is left twice");
        }
        let all = taken.iter().filter(|it| it.load(SeqCst) == 1).count();
        assert!(leaves || all == taken.len(), "{all} jobs came of {}", taken.len());
        closed += u64::from(refused.load(SeqCst));
    }
    assert!(closed > 0, "no close came while a submit slept");
}
