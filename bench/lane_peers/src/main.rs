//! Jobs through bounded queues: `lane_peers KIND PRODUCERS CONSUMERS CAPACITY JOBS [WORD..]`.
//!
//! A job is a number and a dimension. Each producer puts in JOBS jobs. KIND is `twin` (a lane of CAPACITY for each
//! producer), `array` (crossbeam's ArrayQueue), `channel` (its bounded channel), or `mutex` (a `Mutex<VecDeque>`), which
//! are one queue of CAPACITY for all. Who finds a queue full or empty yields. The time from the first put to the last take
//! is written to standard error, in nanoseconds on the clock and of processor time. Every job must come out once, and at
//! each consumer the jobs of a producer must come in their order. The number of jobs is written to standard output.
//!
//! With the word `touched`, the room for the jobs that consumers take is written before. With `alone` one thread puts in
//! CAPACITY jobs and takes them, in turn.

mod twin;

use std::collections::VecDeque;
use std::sync::Mutex;
use std::thread;
use std::time::Instant;

/// A job as a consumer keeps it: its producer, its number there, and its dimension.
#[derive(Clone, Copy)]
struct Taken {
    producer: usize,
    seq: u64,
    dim: u32,
}

/// What all kinds have in common. Each producer and each consumer has a handle of its own.
trait Queue: Sync {
    type Producer: Send;
    type Consumer: Send;
    fn producer(&self, number: usize) -> Self::Producer;
    fn consumer(&self, number: usize) -> Self::Consumer;
    /// Puts a job in, unless there is no room.
    fn put(&self, producer: &mut Self::Producer, payload: u64, dim: u32) -> bool;
    fn take(&self, consumer: &mut Self::Consumer) -> Option<(u64, u32)>;
}

struct Twin {
    lanes: twin::Lanes,
    producers: usize,
    consumers: usize,
}

impl Queue for Twin {
    type Producer = twin::Lane;
    /// The lane at which it begins, which is that of its last job.
    type Consumer = (usize, twin::Worker);

    fn producer(&self, number: usize) -> twin::Lane {
        self.lanes.lane(number)
    }

    fn consumer(&self, number: usize) -> (usize, twin::Worker) {
        (number * self.producers / self.consumers, self.lanes.worker())
    }

    fn put(&self, lane: &mut twin::Lane, payload: u64, dim: u32) -> bool {
        self.lanes.submit(lane, payload, dim).is_ok()
    }

    fn take(&self, (from, worker): &mut (usize, twin::Worker)) -> Option<(u64, u32)> {
        let (lane, job) = self.lanes.take_any(worker, *from)?;
        debug_assert_eq!(job.seq, job.payload & 0xffff_ffff);
        *from = lane;
        Some((job.payload, job.dim))
    }
}

struct Array(crossbeam_queue::ArrayQueue<(u64, u32)>);

impl Queue for Array {
    type Producer = ();
    type Consumer = ();
    fn producer(&self, _: usize) {}
    fn consumer(&self, _: usize) {}

    fn put(&self, _: &mut (), payload: u64, dim: u32) -> bool {
        self.0.push((payload, dim)).is_ok()
    }

    fn take(&self, _: &mut ()) -> Option<(u64, u32)> {
        self.0.pop()
    }
}

struct Channel(crossbeam_channel::Sender<(u64, u32)>, crossbeam_channel::Receiver<(u64, u32)>);

impl Queue for Channel {
    type Producer = ();
    type Consumer = ();
    fn producer(&self, _: usize) {}
    fn consumer(&self, _: usize) {}

    fn put(&self, _: &mut (), payload: u64, dim: u32) -> bool {
        self.0.try_send((payload, dim)).is_ok()
    }

    fn take(&self, _: &mut ()) -> Option<(u64, u32)> {
        self.1.try_recv().ok()
    }
}

struct Locked(Mutex<VecDeque<(u64, u32)>>, usize);

impl Queue for Locked {
    type Producer = ();
    type Consumer = ();
    fn producer(&self, _: usize) {}
    fn consumer(&self, _: usize) {}

    fn put(&self, _: &mut (), payload: u64, dim: u32) -> bool {
        let mut jobs = self.0.lock().unwrap();
        let has_room = jobs.len() < self.1;
        if has_room {
            jobs.push_back((payload, dim));
        }
        has_room
    }

    fn take(&self, _: &mut ()) -> Option<(u64, u32)> {
        self.0.lock().unwrap().pop_front()
    }
}

/// What is to be run: the numbers of the command line.
#[derive(Clone, Copy)]
struct Sizes {
    producers: usize,
    consumers: usize,
    capacity: usize,
    jobs: u64,
    touched: bool,
    alone: bool,
}

/// The processor time of this process so far, in nanoseconds.
fn processor_nanos() -> u64 {
    #[repr(C)]
    struct Timespec {
        seconds: i64,
        nanos: i64,
    }
    extern "C" {
        fn clock_gettime(clock: i32, time: *mut Timespec) -> i32;
    }
    const CLOCK_PROCESS_CPUTIME_ID: i32 = 2;
    let mut time = Timespec { seconds: 0, nanos: 0 };
    // SAFETY: on Linux of 64 bits this is the function of the C library, which writes a time to the place.
    unsafe { clock_gettime(CLOCK_PROCESS_CPUTIME_ID, &mut time) };
    time.seconds as u64 * 1_000_000_000 + time.nanos as u64
}

fn feed<Q: Queue>(queue: &Q, number: usize, jobs: u64) {
    let mut producer = queue.producer(number);
    for seq in 0..jobs {
        while !queue.put(&mut producer, (number as u64) << 32 | seq, (seq % 8) as u32) {
            thread::yield_now();
        }
    }
}

fn drain<Q: Queue>(queue: &Q, number: usize, mut all: Vec<Taken>) -> Vec<Taken> {
    let mut consumer = queue.consumer(number);
    while all.len() < all.capacity() {
        match queue.take(&mut consumer) {
            Some((payload, dim)) => all.push(Taken { producer: (payload >> 32) as usize, seq: payload & 0xffff_ffff, dim }),
            None => thread::yield_now(),
        }
    }
    all
}

/// Has one thread fill the queue and take all jobs, in turn.
fn feed_and_drain<Q: Queue>(queue: &Q, sizes: Sizes, mut all: Vec<Taken>) -> Vec<Taken> {
    let (mut producer, mut consumer) = (queue.producer(0), queue.consumer(0));
    let mut seq = 0;
    while seq < sizes.jobs {
        let end = sizes.jobs.min(seq + sizes.capacity as u64);
        (seq..end).for_each(|job| assert!(queue.put(&mut producer, job, (job % 8) as u32)));
        while seq < end {
            let (payload, dim) = queue.take(&mut consumer).expect("a job");
            all.push(Taken { producer: 0, seq: payload, dim });
            seq += 1;
        }
    }
    all
}

/// Makes room for the jobs of a consumer.
fn room_for(count: usize, touched: bool) -> Vec<Taken> {
    let mut room = Vec::with_capacity(count);
    if touched {
        room.resize(count, Taken { producer: 0, seq: 0, dim: 0 });
        room.clear();
    }
    room
}

/// Sees that each job came out once, as it was put in, and in order. Returns the number of jobs.
fn checked(all: &[Vec<Taken>], sizes: Sizes) -> usize {
    let mut seen = vec![vec![false; sizes.jobs as usize]; sizes.producers];
    for taken in all {
        let mut next = vec![0; sizes.producers];
        for job in taken {
            assert!(job.seq >= next[job.producer] && u64::from(job.dim) == job.seq % 8);
            next[job.producer] = job.seq + 1;
            assert!(!std::mem::replace(&mut seen[job.producer][job.seq as usize], true));
        }
    }
    all.iter().map(Vec::len).sum()
}

fn run<Q: Queue>(queue: &Q, sizes: Sizes) {
    let each = sizes.producers * sizes.jobs as usize / sizes.consumers;
    let mut room: Vec<Vec<Taken>> = (0..sizes.consumers).map(|_| room_for(each, sizes.touched)).collect();
    let (start, processor) = (Instant::now(), processor_nanos());
    let all: Vec<Vec<Taken>> = if sizes.alone {
        vec![feed_and_drain(queue, sizes, room.remove(0))]
    } else {
        run_threads(queue, sizes, room)
    };
    let (nanos, processor) = (start.elapsed().as_nanos(), processor_nanos() - processor);
    println!("{}", checked(&all, sizes));
    eprintln!("{nanos} {processor}");
}

fn run_threads<Q: Queue>(queue: &Q, sizes: Sizes, room: Vec<Vec<Taken>>) -> Vec<Vec<Taken>> {
    thread::scope(|scope| {
        let consumers: Vec<_> =
            room.into_iter().enumerate().map(|(number, all)| scope.spawn(move || drain(queue, number, all))).collect();
        for number in 0..sizes.producers {
            scope.spawn(move || feed(queue, number, sizes.jobs));
        }
        consumers.into_iter().map(|consumer| consumer.join().unwrap()).collect()
    })
}

fn main() {
    let words: Vec<String> = std::env::args().skip(1).collect();
    let numbers: Vec<usize> = words[1..5].iter().map(|word| word.parse().expect("a number")).collect();
    let [producers, consumers, capacity, jobs] = numbers[..] else {
        panic!("four numbers are wanted");
    };
    let has = |it: &str| words[5..].iter().any(|word| word == it);
    let (touched, alone) = (has("touched"), has("alone"));
    let sizes = Sizes { producers, consumers, capacity, jobs: jobs as u64, touched, alone };
    match words[0].as_str() {
        "twin" => run(&Twin { lanes: twin::Lanes::open(producers, capacity as u64), producers, consumers }, sizes),
        "array" => run(&Array(crossbeam_queue::ArrayQueue::new(capacity)), sizes),
        "channel" => {
            let (sender, receiver) = crossbeam_channel::bounded(capacity);
            run(&Channel(sender, receiver), sizes);
        }
        "mutex" => run(&Locked(Mutex::new(VecDeque::with_capacity(capacity)), sizes.capacity), sizes),
        kind => panic!("no kind {kind}"),
    }
}
