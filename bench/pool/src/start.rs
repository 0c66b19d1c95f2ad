//! From a submit to the begin of the job, and an idle pool.

use crate::table::{load, median, verdict};
use crate::Peers;
use cubejobs_pool::{Group, Pool};
use std::fs;
use std::hint::spin_loop;
use std::sync::atomic::{AtomicU64, Ordering::SeqCst};
use std::sync::Arc;
use std::thread;
use std::time::{Duration, Instant};

/// A clock that jobs stop.
#[derive(Clone)]
struct Clock {
    zero: Instant,
    stopped: Arc<AtomicU64>,
}

impl Clock {
    fn stop(&self) {
        self.stopped.store(self.zero.elapsed().as_nanos() as u64, SeqCst);
    }

    /// Returns the microseconds from the submit until the job has stopped the clock.
    fn time(&self, submit: impl FnOnce(Clock)) -> f64 {
        self.stopped.store(0, SeqCst);
        let begin = self.zero.elapsed().as_nanos() as u64;
        submit(self.clone());
        while self.stopped.load(SeqCst) == 0 {
            spin_loop();
        }
        (self.stopped.load(SeqCst) - begin) as f64 / 1000.0
    }
}

/// Waits that many microseconds. If they are many, the workers fall asleep.
fn pause(microseconds: u64) {
    let start = Instant::now();
    if microseconds >= 1_000 {
        thread::sleep(Duration::from_micros(microseconds));
    }
    while start.elapsed() < Duration::from_micros(microseconds) {
        spin_loop();
    }
}

/// Submits a gang that stops the clock once all its members have begun.
fn submit_gang(pool: &Pool, dim: u32, clock: Clock) {
    let gang = move |group: &Group<'_>| {
        group.barrier();
        if group.rank() == 0 {
            clock.stop();
        }
    };
    drop(pool.submit(dim, gang).unwrap());
}

type Submit<'a> = (&'static str, Box<dyn Fn(Clock) + 'a>);

pub fn measure(peers: &Peers, rounds: usize) {
    let Peers { rayon, pool, channel } = peers;
    let submits: [Submit<'_>; 5] = [
        ("rayon: spawn", Box::new(|clock| rayon.spawn(move || clock.stop()))),
        ("pool: detach", Box::new(|clock| pool.detach(move || clock.stop()))),
        ("crossbeam: channel", Box::new(|clock| channel.send(Box::new(move || clock.stop())).unwrap())),
        ("pool: gang of 2, past a barrier", Box::new(|clock| submit_gang(pool, 1, clock))),
        ("pool: gang of 4, past a barrier", Box::new(|clock| submit_gang(pool, 2, clock))),
    ];
    let clock = Clock { zero: Instant::now(), stopped: Arc::new(AtomicU64::new(0)) };
    for (state, microseconds) in [("asleep", 1_000), ("awake", 20)] {
        let mut times = [const { Vec::new() }; 5];
        for _ in 0..rounds * 20 {
            for ((_, submit), times) in submits.iter().zip(&mut times) {
                pause(microseconds);
                times.push(clock.time(submit));
            }
        }
        println!("\nfrom submit to begin, workers {state}, us (load {})", load());
        let mut middles = Vec::new();
        for ((name, _), times) in submits.iter().zip(&mut times) {
            let middle = median(times);
            let late = times[times.len() * 9 / 10];
            println!("  {name:32} least {:7.1}  median {middle:7.1}  9 in 10 {late:7.1}", times[0]);
            middles.push(middle);
        }
        println!("  the pool's detach is at most rayon's spawn: {}", verdict(middles[1] <= middles[0]));
    }
}

/// Returns the microseconds of processor time of this process's threads whose names begin so.
fn used(name: &str) -> u64 {
    let tasks = fs::read_dir("/proc/self/task").unwrap().filter_map(Result::ok);
    let of_pool = tasks
        .filter(|task| fs::read_to_string(task.path().join("comm")).is_ok_and(|it| it.starts_with(name)));
    let nanoseconds = of_pool.filter_map(|task| {
        let text = fs::read_to_string(task.path().join("schedstat")).ok()?;
        text.split(' ').next()?.parse::<u64>().ok()
    });
    nanoseconds.sum::<u64>() / 1000
}

pub fn measure_idle() {
    let pool = Pool::builder().workers_log2(3).build().unwrap();
    pool.run(3, |group| group.barrier());
    thread::sleep(Duration::from_millis(50));
    let before = used("gang-");
    thread::sleep(Duration::from_secs(1));
    let time = used("gang-") - before;
    println!("\nan idle pool of 8 workers: {time} us of processor time in a second");
    println!("  at most 100 us: {}", verdict(time <= 100));
}
