//! Gangs beside a full stream of other jobs, all of which sleep: so the number of cores does not
//! matter.

use crate::table::{load, median, verdict};
use cubejobs_pool::{Group, Pool};
use std::sync::atomic::{AtomicBool, AtomicU64, Ordering::SeqCst};
use std::sync::{Arc, Mutex};
use std::thread;
use std::time::{Duration, Instant};

const SECONDS: u64 = 3;

/// The longest nap of a job, in milliseconds.
const LONGEST: f64 = 3.0;

/// The naps of jobs: 0.5 to 3 ms.
struct Naps(u64);

impl Naps {
    fn next(&mut self) -> Duration {
        self.0 ^= self.0 << 13;
        self.0 ^= self.0 >> 7;
        self.0 ^= self.0 << 17;
        Duration::from_micros(500 + self.0 % 2_500)
    }
}

/// What all jobs of a stream share.
struct Stream {
    stop: AtomicBool,
    busy: AtomicU64,
}

impl Stream {
    fn nap(&self, nap: Duration) {
        thread::sleep(nap);
        self.busy.fetch_add(nap.as_micros() as u64, SeqCst);
    }
}

/// Submits jobs of this dimension until the stream stops. A `None` is one-worker jobs.
fn fill(pool: &Pool, dim: Option<u32>, stream: &Arc<Stream>) {
    let mut naps = Naps(99);
    while !stream.stop.load(SeqCst) {
        let (nap, shared) = (naps.next(), stream.clone());
        match dim {
            None => pool.detach(move || shared.nap(nap)),
            Some(dim) => drop(pool.submit(dim, move |_| shared.nap(nap))),
        }
    }
}

/// Submits one gang of this dimension after the other. Returns the milliseconds from each submit
/// until all members have begun.
fn gangs(pool: &Pool, dim: u32, stream: &Arc<Stream>) -> Vec<f64> {
    let waits = Arc::new(Mutex::new(Vec::new()));
    let mut naps = Naps(7 + u64::from(dim));
    while !stream.stop.load(SeqCst) {
        let (nap, shared, times, start) = (naps.next(), stream.clone(), waits.clone(), Instant::now());
        let gang = move |group: &Group<'_>| {
            group.barrier();
            if group.rank() == 0 {
                times.lock().unwrap().push(start.elapsed().as_secs_f64() * 1e3);
            }
            shared.nap(nap);
        };
        let ticket = pool.submit(dim, gang).unwrap();
        while !ticket.is_finished() && !stream.stop.load(SeqCst) {
            thread::sleep(Duration::from_millis(1));
        }
        thread::sleep(Duration::from_millis(25));
    }
    let mut taken = waits.lock().unwrap();
    std::mem::take(&mut taken)
}

fn run(name: &str, dim: Option<u32>) {
    let pool = Pool::builder().workers_log2(4).lane_capacity(64).build().unwrap();
    let stream = Arc::new(Stream { stop: AtomicBool::new(false), busy: AtomicU64::new(0) });
    let start = Instant::now();
    println!("\na full stream of {name} on 16 workers (load {})", load());
    thread::scope(|threads| {
        let (pool, stream) = (&pool, &stream);
        threads.spawn(move || fill(pool, dim, stream));
        let waits = [3, 4].map(|dim| (dim, threads.spawn(move || gangs(pool, dim, stream))));
        thread::sleep(Duration::from_secs(SECONDS));
        stream.stop.store(true, SeqCst);
        for (dim, thread) in waits {
            let mut times = thread.join().unwrap();
            let (count, middle) = (times.len(), median(&mut times));
            let most = times.last().unwrap_or(&0.0);
            println!(
                "  gangs of {:2}: {count} begun, after {middle:.1} ms (median), {most:.1} ms (most)",
                1 << dim
            );
            println!("    within ten times the longest job: {}", verdict(middle <= 10.0 * LONGEST));
        }
    });
    let time = start.elapsed().as_secs_f64() * 1e6 * 16.0;
    let used = stream.busy.load(SeqCst) as f64 / time * 100.0;
    println!("  {used:.1} % of the workers' time in use, at least 85 %: {}", verdict(used >= 85.0));
}

pub fn measure() {
    run("one-worker jobs", None);
    run("gangs of 2", Some(1));
}
