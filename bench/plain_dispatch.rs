//! A dispatcher on threads, as plain Rust without crates.
//!
//! `plain_dispatch ITEMS LANES DISPATCHERS CAPACITY JOBS` does the work of `cube_bench dispatch locked`
//! with the same two locks: a mutex around the line, and one around the allocation bits. Build it with
//! `rustc --edition 2021 -O`.

mod plain_machine;

use plain_machine::Machine;
use std::collections::VecDeque;
use std::env;
use std::hint::spin_loop;
use std::sync::Mutex;
use std::thread;
use std::time::Instant;

const DIM: u32 = 10;
const MAX_ENTRIES: u64 = 1 << 48;

#[allow(dead_code)]
#[derive(Clone, Copy)]
enum Kind {
    Broadcast { root: u64 },
    AllReduce { op: Op },
}

#[allow(dead_code)]
#[derive(Clone, Copy)]
enum Op {
    Add,
    Max,
    Xor,
}

#[allow(dead_code)]
struct Request {
    machine: u32,
    lane: u32,
    kind: Kind,
    dim: u32,
    items: Vec<u64>,
}

#[allow(dead_code)]
struct Workspace {
    values: Box<[u64]>,
    totals: Box<[u64]>,
}

struct Job {
    request: Request,
    workspace: Workspace,
}

#[allow(dead_code)]
#[derive(Clone, Copy)]
struct JobId {
    lane: u32,
    seq: u64,
}

#[allow(dead_code)]
struct Reply {
    id: JobId,
    request: Request,
    base: usize,
    rounds: u32,
    messages: u64,
    workspace: Workspace,
}

enum Refused {
    Full,
    Closed,
    LaneSpent,
}

enum Taken {
    Job(JobId, Job),
    EmptyNow,
    Ended,
}

struct Store {
    jobs: VecDeque<(JobId, Job)>,
    accepted: Vec<u64>,
    entries: u64,
    closed: bool,
}

struct Lane {
    number: u32,
    entries: u64,
}

struct Shop {
    store: Mutex<Store>,
    machine: Mutex<Machine>,
    capacity: usize,
}

/// The pauses between tries of `crossbeam_utils`.
struct Backoff {
    step: u32,
}

impl Backoff {
    fn snooze(&mut self) {
        if self.step <= 6 {
            for _ in 0..1 << self.step {
                spin_loop();
            }
        } else {
            thread::yield_now();
        }
        if self.step <= 10 {
            self.step += 1;
        }
    }
}

impl Shop {
    fn submit(&self, lane: &mut Lane, job: Job) -> Result<u64, (Job, Refused)> {
        if lane.entries >= MAX_ENTRIES {
            return Err((job, Refused::LaneSpent));
        }
        let mut store = self.store.lock().unwrap();
        if store.closed {
            return Err((job, Refused::Closed));
        }
        lane.entries += 1;
        let number = store.entries;
        store.entries += 1;
        if store.jobs.len() >= self.capacity {
            return Err((job, Refused::Full));
        }
        let seq = store.accepted[lane.number as usize];
        store.accepted[lane.number as usize] = seq + 1;
        let lane = lane.number;
        store.jobs.push_back((JobId { lane, seq }, job));
        Ok(number)
    }

    fn take_job(&self) -> Taken {
        let mut store = self.store.lock().unwrap();
        match store.jobs.pop_front() {
            Some((id, job)) => Taken::Job(id, job),
            None if store.closed => Taken::Ended,
            None => Taken::EmptyNow,
        }
    }

    fn take_region(&self, dim: u32) -> usize {
        let mut backoff = Backoff { step: 0 };
        loop {
            let base = self.machine.lock().unwrap().take(dim);
            if let Some(base) = base {
                return base;
            }
            backoff.snooze();
        }
    }

    fn serve(&self, id: JobId, job: Job) -> Reply {
        let dim = job.request.dim;
        let base = self.take_region(dim);
        let reply = answer(id, base, job);
        self.machine.lock().unwrap().release(base, dim);
        reply
    }
}

fn all_reduce(items: &mut [u64], join: impl Fn(u64, u64) -> u64) {
    let mut half = 1;
    while half < items.len() {
        for block in items.chunks_exact_mut(2 * half) {
            let (low, high) = block.split_at_mut(half);
            for (a, b) in low.iter_mut().zip(high) {
                let both = join(*a, *b);
                *a = both;
                *b = both;
            }
        }
        half *= 2;
    }
}

fn answer(id: JobId, base: usize, job: Job) -> Reply {
    let Job {
        request,
        mut workspace,
    } = job;
    let values = &mut workspace.values;
    match request.kind {
        Kind::AllReduce { op: Op::Add } => all_reduce(values, u64::wrapping_add),
        Kind::AllReduce { op: Op::Max } => all_reduce(values, u64::max),
        Kind::AllReduce { op: Op::Xor } => all_reduce(values, |a, b| a ^ b),
        Kind::Broadcast { root } => {
            let value = values[root as usize];
            values.fill(value);
        }
    }
    Reply {
        id,
        base,
        rounds: request.dim,
        messages: u64::from(request.dim) << request.dim,
        request,
        workspace,
    }
}

/// How many jobs are left.
fn feed(shop: &Shop, mut lane: Lane, mut jobs: VecDeque<Job>) -> usize {
    let mut backoff = Backoff { step: 0 };
    while let Some(job) = jobs.pop_front() {
        match shop.submit(&mut lane, job) {
            Ok(_) => backoff.step = 0,
            Err((job, Refused::Full)) => {
                jobs.push_front(job);
                backoff.snooze();
            }
            Err((_, Refused::Closed | Refused::LaneSpent)) => return jobs.len() + 1,
        }
    }
    0
}

fn dispatch(shop: &Shop) -> Vec<Reply> {
    let mut replies = Vec::new();
    let mut backoff = Backoff { step: 0 };
    loop {
        match shop.take_job() {
            Taken::Job(id, job) => {
                replies.push(shop.serve(id, job));
                backoff.step = 0;
            }
            Taken::EmptyNow => backoff.snooze(),
            Taken::Ended => return replies,
        }
    }
}

fn feed_on_threads(shop: &Shop, jobs: Vec<VecDeque<Job>>) {
    thread::scope(|scope| {
        for (number, jobs) in jobs.into_iter().enumerate() {
            let number = number as u32;
            let lane = Lane { number, entries: 0 };
            scope.spawn(move || assert_eq!(feed(shop, lane, jobs), 0));
        }
    });
}

/// The replies of each worker.
fn run(workers: usize, capacity: usize, jobs: Vec<VecDeque<Job>>) -> Vec<Vec<Reply>> {
    let shop = Shop {
        store: Mutex::new(Store {
            jobs: VecDeque::with_capacity(capacity),
            accepted: vec![0; jobs.len()],
            entries: 0,
            closed: false,
        }),
        machine: Mutex::new(Machine::new(DIM)),
        capacity,
    };
    let shop = &shop;
    thread::scope(|scope| {
        let workers: Vec<_> = (0..workers).map(|_| scope.spawn(move || dispatch(shop))).collect();
        feed_on_threads(shop, jobs);
        shop.store.lock().unwrap().closed = true;
        workers.into_iter().map(|worker| worker.join().unwrap()).collect()
    })
}

fn job(lane: u32, items: usize) -> Job {
    let items = vec![1; items];
    Job {
        workspace: Workspace {
            values: items.clone().into_boxed_slice(),
            totals: Box::new([]),
        },
        request: Request {
            machine: DIM,
            lane,
            kind: Kind::AllReduce { op: Op::Add },
            dim: items.len().ilog2(),
            items,
        },
    }
}

fn main() {
    let words: Vec<usize> = env::args().skip(1).map(|word| word.parse().expect("a number")).collect();
    let [items, lanes, workers, capacity, each] = words[..] else {
        panic!("five numbers are wanted");
    };
    let jobs = (0..lanes as u32).map(|lane| (0..each).map(|_| job(lane, items)).collect()).collect();
    let start = Instant::now();
    let by_worker = run(workers, capacity, jobs);
    let nanos = start.elapsed().as_nanos();
    let replies = by_worker.iter().flatten();
    assert!(replies.clone().all(|reply| reply.workspace.values.iter().all(|value| *value == items as u64)));
    println!("{}", replies.count());
    eprintln!("{nanos}");
}
