//! A scheduler that many threads use in random ways: submits that sleep, time out or are refused,
//! workers that are dropped or lost, cancels, blocks out of service, and closes. Each job is dropped
//! once, wherever it goes, and no two jobs have a processor at the same time.
//!
//! `SCHED_ROUNDS` is the number of rounds of each row, and `SCHED_SEED` where the random numbers
//! begin.

use cubejobs::sched::{Allocation, CancelError, Ended, Options, Reason, Request, Scheduler, Ticket, Waiting};
use cubejobs::Region;
use limit::limited;
use std::env;
use std::mem::forget;
use std::sync::atomic::{AtomicBool, AtomicU64, AtomicU8, Ordering::SeqCst};
use std::sync::Mutex;
use std::thread;
use std::time::Duration;

mod limit;

/// A row of the table.
#[derive(Clone, Copy)]
struct Row {
    dim: u32,
    /// How many jobs may wait and run.
    jobs: u32,
    /// How many threads submit, and how many jobs each one has.
    submitters: (u64, u64),
    workers: u32,
    /// How many of a hundred jobs are cancelled.
    cancels: u64,
    /// Whether a thread takes blocks out of service.
    occupies: bool,
    /// Whether workers are lost, and jobs forgotten.
    loses: bool,
    /// How it is closed when all submitters are done, or half of them.
    end: (Waiting, bool),
}

const ROW: Row = Row {
    dim: 4,
    jobs: 8,
    submitters: (3, 300),
    workers: 4,
    cancels: 10,
    occupies: false,
    loses: false,
    end: (Waiting::Run, false),
};

const TABLE: [Row; 8] = [
    ROW,
    Row { occupies: true, ..ROW },
    Row { loses: true, ..ROW },
    Row { end: (Waiting::ComeBack, true), ..ROW },
    Row { dim: 0, jobs: 1, workers: 2, ..ROW },
    Row { dim: 8, jobs: 1000, submitters: (2, 1000), workers: 8, cancels: 40, ..ROW },
    Row { workers: 1, cancels: 0, ..ROW },
    Row { jobs: 2, submitters: (6, 100), occupies: true, loses: true, end: (Waiting::ComeBack, true), ..ROW },
];

/// What the threads of a round see and count.
struct Round {
    row: Row,
    /// How often the job of each number was dropped.
    drops: Vec<AtomicU8>,
    /// Whether a job has the processor of each number.
    is_held: Vec<AtomicBool>,
    /// The tickets that may be cancelled.
    tickets: Mutex<Vec<(Ticket, u64)>>,
    ran: AtomicU64,
    cancelled: AtomicU64,
    rejected: AtomicU64,
    forgotten: AtomicU64,
    lost: AtomicU64,
}

/// A job, which counts its drop.
struct Job<'a> {
    number: u64,
    drops: &'a AtomicU8,
}

impl Drop for Job<'_> {
    fn drop(&mut self) {
        self.drops.fetch_add(1, SeqCst);
    }
}

/// Random numbers.
struct Random(u64);

impl Random {
    fn new(seed: u64) -> Self {
        // A state of 0 would stay 0.
        Random(seed.wrapping_mul(0x9e37_79b9_7f4a_7c15) | 1)
    }

    fn below(&mut self, most: u64) -> u64 {
        self.0 ^= self.0 << 13;
        self.0 ^= self.0 >> 7;
        self.0 ^= self.0 << 17;
        (self.0 >> 11) % most
    }

    fn time(&mut self) -> Duration {
        Duration::from_micros(self.below(300))
    }
}

impl Round {
    fn new(row: Row) -> Self {
        let jobs = row.submitters.0 * row.submitters.1;
        Round {
            row,
            drops: (0..jobs).map(|_| AtomicU8::new(0)).collect(),
            is_held: (0..1 << row.dim).map(|_| AtomicBool::new(false)).collect(),
            tickets: Mutex::new(Vec::new()),
            ran: AtomicU64::new(0),
            cancelled: AtomicU64::new(0),
            rejected: AtomicU64::new(0),
            forgotten: AtomicU64::new(0),
            lost: AtomicU64::new(0),
        }
    }

    /// Submits the jobs of one thread.
    fn submit<'a>(&'a self, scheduler: &Scheduler<Job<'a>>, thread: u64, mut random: Random) {
        let count = self.row.submitters.1;
        for number in thread * count..(thread + 1) * count {
            let mut job = Job { number, drops: &self.drops[number as usize] };
            let size = 1 + random.below(1 << self.row.dim) as u32;
            let mut request = Request::new(size).class(random.below(8) as u8);
            request.estimate = (random.below(2) == 0).then(|| random.time());
            loop {
                let result = match random.below(3) {
                    0 => scheduler.submit(job, request),
                    1 => scheduler.try_submit(job, request),
                    _ => scheduler.submit_timeout(job, request, random.time()),
                };
                let rejected = match result {
                    Ok(ticket) => {
                        self.tickets.lock().unwrap().push((ticket, number));
                        break;
                    }
                    Err(rejected) => rejected,
                };
                assert_eq!(rejected.job.number, number);
                job = match rejected.reason {
                    Reason::Closed => {
                        self.rejected.fetch_add(1, SeqCst);
                        break;
                    }
                    Reason::Full | Reason::TimedOut => rejected.into_job(),
                    reason => panic!("{reason}"),
                };
            }
            if random.below(100) < self.row.cancels {
                self.cancel(scheduler, &mut random);
            }
        }
    }

    /// Cancels a job, if there is one that may wait.
    fn cancel(&self, scheduler: &Scheduler<Job<'_>>, random: &mut Random) {
        let mut tickets = self.tickets.lock().unwrap();
        if tickets.is_empty() {
            return;
        }
        let index = random.below(tickets.len() as u64) as usize;
        let (ticket, number) = tickets.swap_remove(index);
        drop(tickets);
        match scheduler.cancel(ticket) {
            Ok(job) => {
                assert_eq!(job.number, number);
                self.cancelled.fetch_add(1, SeqCst);
                assert_eq!(
                    (scheduler.forecast(ticket), scheduler.cancel(ticket).err()),
                    (None, Some(CancelError::NoJob))
                );
            }
            Err(CancelError::NoJob | CancelError::Runs) => {}
            Err(error) => panic!("{error}"),
        }
    }

    /// Holds the processors of a job for a while.
    fn run(&self, job: &Allocation<'_, Job<'_>>, random: &mut Random) {
        self.ran.fetch_add(1, SeqCst);
        let range = job.base() as usize..job.base() as usize + job.processors() as usize;
        for processor in range.clone() {
            assert!(!self.is_held[processor].swap(true, SeqCst), "two jobs have a processor");
        }
        match random.below(4) {
            0 => thread::sleep(random.time()),
            1 => thread::yield_now(),
            _ => {}
        }
        for processor in range {
            self.is_held[processor].store(false, SeqCst);
        }
    }

    /// Runs jobs until no one will start any more. Workers come and go.
    fn work<'a>(&'a self, scheduler: &Scheduler<Job<'a>>, mut random: Random) {
        loop {
            let mut worker = scheduler.worker().expect("there is one for each thread");
            for _ in 0..=random.below(19) {
                let next = match random.below(3) {
                    0 => worker.next(),
                    1 => worker.try_next(),
                    _ => worker.next_timeout(random.time()),
                };
                let job = match next {
                    Ok(job) => job,
                    Err(Ended::Closed) => return,
                    Err(Ended::NoJob | Ended::TimedOut) => continue,
                    Err(ended) => panic!("{ended}"),
                };
                self.run(&job, &mut random);
                match random.below(if self.row.loses { 8 } else { 7 }) {
                    0..4 => drop(job),
                    4..7 => drop(job.into_job()),
                    _ => {
                        self.forgotten.fetch_add(1, SeqCst);
                        forget(job);
                    }
                }
            }
            if self.row.loses && random.below(3) == 0 {
                let number = worker.number();
                self.lost.fetch_add(1, SeqCst);
                if random.below(2) == 0 {
                    forget(worker);
                    assert!(scheduler.lost(number).expect("it is out").is_none());
                } else {
                    assert!(scheduler.lost(number).expect("it is out").is_none());
                    assert_eq!(worker.next().err(), Some(Ended::Lost));
                }
            }
        }
    }

    /// Takes blocks out of service and puts them back, until `stops` says so.
    fn occupy(&self, scheduler: &Scheduler<Job<'_>>, stops: &AtomicBool, mut random: Random) {
        while !stops.load(SeqCst) {
            let dim = random.below(u64::from(self.row.dim) + 1) as u32;
            let region = Region { base: random.below(1 << (self.row.dim - dim)) << dim, dim };
            if scheduler.occupy(region).is_ok() {
                let range = region.base as usize..(region.base + (1 << dim)) as usize;
                for processor in range.clone() {
                    assert!(!self.is_held[processor].swap(true, SeqCst), "a job has a processor");
                }
                thread::sleep(random.time());
                range.for_each(|it| self.is_held[it].store(false, SeqCst));
                scheduler.vacate(region).unwrap();
            }
            thread::sleep(random.time());
        }
    }

    /// Plays a round. Returns how many jobs came back after the close.
    fn play(&self, seed: u64) -> u64 {
        let Row { dim, jobs, submitters, workers, end, .. } = self.row;
        let random = |thread: u64| Random::new(seed.wrapping_mul(1000).wrapping_add(thread));
        let options = Options::new(dim, jobs, workers).patience((seed % 3) as u32);
        let scheduler = Scheduler::new(options).unwrap();
        let (scheduler, stops) = (&scheduler, &AtomicBool::new(false));
        thread::scope(|scope| {
            for number in 0..u64::from(workers) {
                scope.spawn(move || self.work(scheduler, random(500 + number)));
            }
            let mut threads: Vec<_> = (0..submitters.0)
                .map(|number| scope.spawn(move || self.submit(scheduler, number, random(number))))
                .collect();
            let occupies = scope.spawn(move || {
                if self.row.occupies {
                    self.occupy(scheduler, stops, random(900));
                }
            });
            if end.1 {
                threads.truncate(threads.len() / 2);
            }
            threads.into_iter().for_each(|it| it.join().unwrap());
            // A block that is out of service would end all before the jobs that wait for it start.
            stops.store(true, SeqCst);
            occupies.join().unwrap();
            assert!(scheduler.close(end.0));
        });
        let mut rest = 0;
        while let Some(job) = scheduler.rest() {
            assert_eq!(self.drops[job.number as usize].load(SeqCst), 0);
            rest += 1;
        }
        let counts = scheduler.counts();
        assert_eq!((counts.waiting, counts.running, counts.held, counts.occupied), (0, 0, 0, 0));
        rest
    }

    /// Looks at the numbers of a round that is over.
    fn check(&self, rest: u64) {
        let [ran, cancelled, rejected, forgotten] =
            [&self.ran, &self.cancelled, &self.rejected, &self.forgotten].map(|it| it.load(SeqCst));
        assert_eq!(ran + cancelled + rejected + rest, self.drops.len() as u64);
        if self.row.end.0 == Waiting::Run {
            assert_eq!((rest, rejected), (0, 0));
        }
        let drops: Vec<u8> = self.drops.iter().map(|it| it.load(SeqCst)).collect();
        assert!(drops.iter().all(|it| *it <= 1), "a job was dropped twice");
        let dropped: u64 = drops.iter().map(|it| u64::from(*it)).sum();
        assert_eq!(dropped + forgotten, drops.len() as u64, "a job was lost");
    }
}

fn number(name: &str, otherwise: u64) -> u64 {
    env::var(name).map_or(otherwise, |it| it.parse().unwrap())
}

#[test]
fn each_job_goes_one_way() {
    let seed = number("SCHED_SEED", 1);
    let [mut cancelled, mut rejected, mut came_back, mut lost] = [0; 4];
    for round in 0..number("SCHED_ROUNDS", 3) {
        for (index, row) in TABLE.into_iter().enumerate() {
            let _limited = limited(60);
            let it = Round::new(row);
            let rest = it.play(seed.wrapping_add(round * 100 + index as u64));
            it.check(rest);
            cancelled += it.cancelled.load(SeqCst);
            rejected += it.rejected.load(SeqCst);
            came_back += rest;
            lost += it.lost.load(SeqCst);
        }
    }
    println!("cancelled {cancelled}, rejected {rejected}, came back {came_back}, lost {lost}");
    assert!(cancelled > 0 && rejected > 0 && came_back > 0 && lost > 0);
}
