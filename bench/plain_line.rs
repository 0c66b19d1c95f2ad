//! Jobs through a line that is a `Mutex<VecDeque>`, as plain Rust without crates.
//!
//! `plain_line LANES PASSES CAPACITY JOBS` does the work of `cube_bench line locked`. Build it with
//! `rustc --edition 2021 -O`.

use std::collections::VecDeque;
use std::env;
use std::sync::Mutex;
use std::thread;
use std::time::Instant;

const MAX_ENTRIES: u64 = 1 << 48;

#[allow(dead_code)]
enum Kind {
    Broadcast { root: u32 },
    AllReduce { op: u8 },
}

#[allow(dead_code)]
struct Workspace {
    op: u8,
    values: Vec<u64>,
    totals: Vec<u64>,
}

#[allow(dead_code)]
struct Job {
    machine: u32,
    lane: u32,
    kind: Kind,
    items: Vec<u64>,
    workspace: Workspace,
}

#[allow(dead_code)]
struct QueuedJob {
    lane: u32,
    seq: u64,
    job: Job,
}

enum Refused {
    Closed,
    Full,
    LaneSpent,
}

enum Taken {
    Job(QueuedJob),
    EmptyNow,
    Ended,
}

struct Store {
    jobs: VecDeque<QueuedJob>,
    accepted: Vec<u64>,
    entries: u64,
    closed: bool,
}

struct Line {
    store: Mutex<Store>,
    capacity: usize,
}

struct Lane {
    number: u32,
    entries: u64,
}

impl Line {
    fn submit(&self, lane: &mut Lane, job: Job) -> Result<u64, (Job, Refused)> {
        if lane.entries >= MAX_ENTRIES {
            return Err((job, Refused::LaneSpent));
        }
        let mut store = self.store.lock().unwrap();
        if store.closed {
            return Err((job, Refused::Closed));
        }
        lane.entries += 1;
        let number = store.entries;
        store.entries += 1;
        if store.jobs.len() >= self.capacity {
            return Err((job, Refused::Full));
        }
        let seq = store.accepted[lane.number as usize];
        store.accepted[lane.number as usize] = seq + 1;
        store.jobs.push_back(QueuedJob {
            lane: lane.number,
            seq,
            job,
        });
        Ok(number)
    }

    fn take(&self) -> Taken {
        let mut store = self.store.lock().unwrap();
        match store.jobs.pop_front() {
            Some(job) => Taken::Job(job),
            None if store.closed => Taken::Ended,
            None => Taken::EmptyNow,
        }
    }
}

fn feed(line: &Line, mut lane: Lane, mut jobs: VecDeque<Job>) {
    while let Some(job) = jobs.pop_front() {
        match line.submit(&mut lane, job) {
            Ok(_) => {}
            Err((job, Refused::Full)) => {
                jobs.push_front(job);
                thread::yield_now();
            }
            Err((_, Refused::Closed | Refused::LaneSpent)) => return,
        }
    }
}

fn drain(line: &Line, count: usize, mut taken: Vec<QueuedJob>) -> Vec<QueuedJob> {
    while taken.len() < count {
        match line.take() {
            Taken::Job(job) => taken.push(job),
            Taken::EmptyNow => thread::yield_now(),
            Taken::Ended => return taken,
        }
    }
    taken
}

fn job(lane: u32) -> Job {
    Job {
        machine: 2,
        lane,
        kind: Kind::AllReduce { op: 0 },
        items: vec![1],
        workspace: Workspace {
            op: 0,
            values: vec![0],
            totals: Vec::new(),
        },
    }
}

fn main() {
    let words: Vec<usize> = env::args().skip(1).map(|word| word.parse().expect("a number")).collect();
    let [lanes, passes, capacity, each] = words[..] else {
        panic!("four numbers are wanted");
    };
    let count = lanes * each / passes;
    let line = Line {
        store: Mutex::new(Store {
            jobs: VecDeque::with_capacity(capacity),
            accepted: vec![0; lanes],
            entries: 0,
            closed: false,
        }),
        capacity,
    };
    let jobs: Vec<VecDeque<Job>> = (0..lanes as u32).map(|lane| (0..each).map(|_| job(lane)).collect()).collect();
    let room: Vec<Vec<QueuedJob>> = (0..passes).map(|_| Vec::with_capacity(count)).collect();
    let start = Instant::now();
    let line = &line;
    let taken: usize = thread::scope(|scope| {
        let takers: Vec<_> = room.into_iter().map(|taken| scope.spawn(move || drain(line, count, taken))).collect();
        for (number, jobs) in jobs.into_iter().enumerate() {
            let lane = Lane {
                number: number as u32,
                entries: 0,
            };
            scope.spawn(move || feed(line, lane, jobs));
        }
        takers.into_iter().map(|taker| taker.join().unwrap().len()).sum()
    });
    let nanos = start.elapsed().as_nanos();
    println!("{taken}");
    eprintln!("{nanos}");
}
