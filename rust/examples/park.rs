//! Workers whose threads park by `std::thread::park`. A program without `std` parks by what it has.

use cubejobs::lanes::{Found, Lanes, Sizes, Worker};
use std::sync::OnceLock;
use std::thread::{self, Thread};

const WORKERS: usize = 2;
/// The thread of each worker.
static THREADS: [OnceLock<Thread>; WORKERS] = [const { OnceLock::new() }; WORKERS];

fn unpark(worker: Option<u32>) {
    // A thread that has not set its place yet has not parked: it looks before it parks.
    if let Some(thread) = worker.and_then(|number| THREADS[number as usize].get()) {
        thread.unpark();
    }
}

/// Takes jobs until the lanes end. Returns the sum of their payloads.
fn work(mut worker: Worker<u64>) -> u64 {
    THREADS[worker.number() as usize].get_or_init(thread::current);
    let mut sum = 0;
    loop {
        let finding = worker.find(0);
        unpark(finding.woken);
        match finding.found {
            Found::Job(job) => sum += job.payload,
            Found::Ended => return sum,
            Found::Again => thread::yield_now(),
            Found::Park => {
                while !worker.awake() {
                    thread::park();
                }
            }
        }
    }
}

fn main() -> Result<(), Box<dyn std::error::Error>> {
    let lanes = Lanes::new(Sizes { lanes: 1, workers: WORKERS as u32, capacity: 16 })?;
    let mut lane = lanes.lane()?;
    let workers = [lanes.worker()?, lanes.worker()?].map(|it| thread::spawn(move || work(it)));
    for number in 1..=10 {
        unpark(lane.submit(number, 0)?.woken);
    }
    lanes.close();
    (0..WORKERS as u32).for_each(|number| unpark(Some(number)));
    println!("{}", workers.map(|it| it.join().unwrap()).iter().sum::<u64>());
    Ok(())
}
