//! Jobs through a line with no lock, as plain Rust without crates: a gate of two words and the ring of
//! crossbeam's `ArrayQueue`, written after its published algorithm.
//!
//! `plain_ruled_line LANES PASSES CAPACITY JOBS [calls]` does the work of `cube_bench line ruled` with the same
//! arguments. Build it with `rustc --edition 2021 -O`. With `--cfg stamps_seq_cst` all steps of the ring are
//! sequentially consistent, as they are in the proved line, else they have crossbeam's orders. With
//! `--cfg padded` the two words of the gate stand in cache lines of their own.

use std::cell::UnsafeCell;
use std::collections::VecDeque;
use std::env;
use std::hint::spin_loop;
use std::mem::MaybeUninit;
use std::sync::atomic::Ordering::{self, SeqCst};
use std::sync::atomic::{fence, AtomicU64, AtomicUsize};
use std::thread;
use std::time::Instant;

#[cfg(stamps_seq_cst)]
const RELAXED: Ordering = SeqCst;
#[cfg(stamps_seq_cst)]
const ACQUIRE: Ordering = SeqCst;
#[cfg(stamps_seq_cst)]
const RELEASE: Ordering = SeqCst;
#[cfg(not(stamps_seq_cst))]
const RELAXED: Ordering = Ordering::Relaxed;
#[cfg(not(stamps_seq_cst))]
const ACQUIRE: Ordering = Ordering::Acquire;
#[cfg(not(stamps_seq_cst))]
const RELEASE: Ordering = Ordering::Release;

const MAX_ENTRIES: u64 = 1 << 48;
const CLOSED: u64 = 1 << 63;

#[repr(align(128))]
struct Padded<T>(T);

struct Backoff {
    step: u32,
}

impl Backoff {
    fn spin(&mut self) {
        for _ in 0..1 << self.step.min(6) {
            spin_loop();
        }
        if self.step <= 6 {
            self.step += 1;
        }
    }

    fn snooze(&mut self) {
        if self.step <= 6 {
            for _ in 0..1 << self.step {
                spin_loop();
            }
        } else {
            thread::yield_now();
        }
        if self.step <= 10 {
            self.step += 1;
        }
    }
}

struct Slot<T> {
    stamp: AtomicUsize,
    value: UnsafeCell<MaybeUninit<T>>,
}

struct Ring<T> {
    head: Padded<AtomicUsize>,
    tail: Padded<AtomicUsize>,
    slots: Box<[Slot<T>]>,
    lap: usize,
}

unsafe impl<T: Send> Sync for Ring<T> {}

impl<T> Ring<T> {
    fn new(capacity: usize) -> Ring<T> {
        let slots = (0..capacity).map(|index| Slot {
            stamp: AtomicUsize::new(index),
            value: UnsafeCell::new(MaybeUninit::uninit()),
        });
        Ring {
            head: Padded(AtomicUsize::new(0)),
            tail: Padded(AtomicUsize::new(0)),
            slots: slots.collect(),
            lap: (capacity + 1).next_power_of_two(),
        }
    }

    fn after(&self, place: usize) -> usize {
        if (place & (self.lap - 1)) + 1 < self.slots.len() {
            place + 1
        } else {
            (place & !(self.lap - 1)).wrapping_add(self.lap)
        }
    }

    fn push(&self, value: T) -> Result<(), T> {
        let mut backoff = Backoff { step: 0 };
        let mut tail = self.tail.0.load(RELAXED);
        loop {
            let slot = &self.slots[tail & (self.lap - 1)];
            let stamp = slot.stamp.load(ACQUIRE);
            if tail == stamp {
                match self.tail.0.compare_exchange_weak(tail, self.after(tail), SeqCst, RELAXED) {
                    Ok(_) => {
                        unsafe { slot.value.get().write(MaybeUninit::new(value)) };
                        slot.stamp.store(tail + 1, RELEASE);
                        return Ok(());
                    }
                    Err(found) => {
                        tail = found;
                        backoff.spin();
                    }
                }
            } else if stamp.wrapping_add(self.lap) == tail + 1 {
                fence(SeqCst);
                if self.head.0.load(RELAXED).wrapping_add(self.lap) == tail {
                    return Err(value);
                }
                backoff.spin();
                tail = self.tail.0.load(RELAXED);
            } else {
                backoff.snooze();
                tail = self.tail.0.load(RELAXED);
            }
        }
    }

    fn pop(&self) -> Option<T> {
        let mut backoff = Backoff { step: 0 };
        let mut head = self.head.0.load(RELAXED);
        loop {
            let slot = &self.slots[head & (self.lap - 1)];
            let stamp = slot.stamp.load(ACQUIRE);
            if head + 1 == stamp {
                match self.head.0.compare_exchange_weak(head, self.after(head), SeqCst, RELAXED) {
                    Ok(_) => {
                        let value = unsafe { slot.value.get().read().assume_init() };
                        slot.stamp.store(head.wrapping_add(self.lap), RELEASE);
                        return Some(value);
                    }
                    Err(found) => {
                        head = found;
                        backoff.spin();
                    }
                }
            } else if stamp == head {
                fence(SeqCst);
                if self.tail.0.load(RELAXED) == head {
                    return None;
                }
                backoff.spin();
                head = self.head.0.load(RELAXED);
            } else {
                backoff.snooze();
                head = self.head.0.load(RELAXED);
            }
        }
    }
}

#[allow(dead_code)]
enum Kind {
    Broadcast { root: u32 },
    AllReduce { op: u8 },
}

#[allow(dead_code)]
struct Work {
    machine: u32,
    lane: u32,
    kind: Kind,
    items: Vec<u64>,
    op: u8,
    values: Vec<u64>,
    totals: Vec<u64>,
}

// One box, as a job of the proved program is.
type Job = Box<Work>;

#[allow(dead_code)]
struct QueuedJob {
    lane: u32,
    seq: u64,
    job: Job,
}

enum Refused {
    Closed,
    Full,
    LaneSpent,
}

enum Taken {
    Job(QueuedJob),
    EmptyNow,
    Ended,
}

// The count of entries with the closed mark, and the count of settled entries.
#[cfg(padded)]
struct Gate {
    counted: Padded<AtomicU64>,
    settled: Padded<AtomicU64>,
}

#[cfg(padded)]
impl Gate {
    fn new() -> Gate {
        Gate {
            counted: Padded(AtomicU64::new(0)),
            settled: Padded(AtomicU64::new(0)),
        }
    }

    fn counted(&self) -> &AtomicU64 {
        &self.counted.0
    }

    fn settled(&self) -> &AtomicU64 {
        &self.settled.0
    }
}

#[cfg(not(padded))]
struct Gate {
    words: [AtomicU64; 2],
}

#[cfg(not(padded))]
impl Gate {
    fn new() -> Gate {
        Gate {
            words: [AtomicU64::new(0), AtomicU64::new(0)],
        }
    }

    fn counted(&self) -> &AtomicU64 {
        &self.words[0]
    }

    fn settled(&self) -> &AtomicU64 {
        &self.words[1]
    }
}

struct Line {
    gate: Gate,
    ring: Ring<QueuedJob>,
}

struct Lane {
    number: u32,
    accepted: u64,
    entries: u64,
}

impl Line {
    fn submit(&self, lane: &mut Lane, job: Job) -> Result<u64, (Job, Refused)> {
        if lane.entries >= MAX_ENTRIES {
            return Err((job, Refused::LaneSpent));
        }
        if self.gate.counted().load(SeqCst) & CLOSED != 0 {
            return Err((job, Refused::Closed));
        }
        let number = self.gate.counted().fetch_add(1, SeqCst);
        if number & CLOSED != 0 {
            self.gate.counted().fetch_sub(1, SeqCst);
            return Err((job, Refused::Closed));
        }
        lane.entries += 1;
        let queued = QueuedJob {
            lane: lane.number,
            seq: lane.accepted,
            job,
        };
        let pushed = self.ring.push(queued);
        self.gate.settled().fetch_add(1, SeqCst);
        match pushed {
            Ok(()) => {
                lane.accepted += 1;
                Ok(number)
            }
            Err(queued) => Err((queued.job, Refused::Full)),
        }
    }

    fn take(&self) -> Taken {
        if let Some(job) = self.ring.pop() {
            return Taken::Job(job);
        }
        let settled = self.gate.settled().load(SeqCst);
        let counted = self.gate.counted().load(SeqCst);
        if counted != settled | CLOSED {
            return Taken::EmptyNow;
        }
        match self.ring.pop() {
            Some(job) => Taken::Job(job),
            None => Taken::Ended,
        }
    }
}

// The nanoseconds of each call that had success, where calls are timed.
type Times = Option<Vec<u64>>;

fn timed<T>(times: &mut Times, call: impl FnOnce() -> T, counts: impl FnOnce(&T) -> bool) -> T {
    let Some(times) = times else {
        return call();
    };
    let start = Instant::now();
    let answer = call();
    let nanos = start.elapsed().as_nanos() as u64;
    if counts(&answer) {
        times.push(nanos);
    }
    answer
}

fn feed(line: &Line, mut lane: Lane, mut jobs: VecDeque<Job>, mut times: Times) -> Times {
    while let Some(job) = jobs.pop_front() {
        match timed(&mut times, || line.submit(&mut lane, job), |answer| answer.is_ok()) {
            Ok(_) => {}
            Err((job, Refused::Full)) => {
                jobs.push_front(job);
                thread::yield_now();
            }
            Err((_, Refused::Closed | Refused::LaneSpent)) => return times,
        }
    }
    times
}

fn drain(line: &Line, count: usize, mut taken: Vec<QueuedJob>, mut times: Times) -> (usize, Times) {
    while taken.len() < count {
        match timed(&mut times, || line.take(), |answer| matches!(answer, Taken::Job(_))) {
            Taken::Job(job) => taken.push(job),
            Taken::EmptyNow => thread::yield_now(),
            Taken::Ended => break,
        }
    }
    (taken.len(), times)
}

fn job(lane: u32) -> Job {
    Box::new(Work {
        machine: 2,
        lane,
        kind: Kind::AllReduce { op: 0 },
        items: vec![1],
        op: 0,
        values: vec![0],
        totals: Vec::new(),
    })
}

fn print(mut times: Vec<u64>) {
    times.sort_unstable();
    if !times.is_empty() {
        for thousandths in [500, 990, 999] {
            eprintln!("{}", times[times.len() / 1000 * thousandths]);
        }
    }
}

fn main() {
    let words: Vec<String> = env::args().skip(1).collect();
    let times_calls = words.len() == 5;
    let numbers: Vec<usize> = words.iter().take(4).map(|word| word.parse().expect("a number")).collect();
    let [lanes, passes, capacity, each] = numbers[..] else {
        panic!("four numbers are wanted");
    };
    let count = lanes * each / passes;
    let line = Line {
        gate: Gate::new(),
        ring: Ring::new(capacity),
    };
    let room = |count: usize| times_calls.then(|| Vec::with_capacity(count));
    let jobs: Vec<VecDeque<Job>> = (0..lanes as u32).map(|lane| (0..each).map(|_| job(lane)).collect()).collect();
    let takings: Vec<Vec<QueuedJob>> = (0..passes).map(|_| Vec::with_capacity(count)).collect();
    let start = Instant::now();
    let line = &line;
    let (taken, submits, takes) = thread::scope(|scope| {
        let takers: Vec<_> = takings
            .into_iter()
            .map(|taken| {
                let times = room(count);
                scope.spawn(move || drain(line, count, taken, times))
            })
            .collect();
        let feeders: Vec<_> = jobs
            .into_iter()
            .enumerate()
            .map(|(number, jobs)| {
                let lane = Lane {
                    number: number as u32,
                    accepted: 0,
                    entries: 0,
                };
                let times = room(each);
                scope.spawn(move || feed(line, lane, jobs, times))
            })
            .collect();
        let mut taken = 0;
        let mut submits = Vec::new();
        let mut takes = Vec::new();
        for taker in takers {
            let (count, times) = taker.join().unwrap();
            taken += count;
            takes.extend(times.unwrap_or_default());
        }
        for feeder in feeders {
            submits.extend(feeder.join().unwrap().unwrap_or_default());
        }
        (taken, submits, takes)
    });
    let nanos = start.elapsed().as_nanos();
    println!("{taken}");
    eprintln!("{nanos}");
    print(submits);
    print(takes);
}
