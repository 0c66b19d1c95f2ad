//! Guards plain memory by blocks and by jobs of the erased sources, for a sanitizer that sees races.
//! `race ROUNDS WHAT` makes at most 16,384 rounds of `blocks` or of `lanes`.
//!
//! Eight threads write the memory of the processors of their blocks. Two producers write the memory of a job before
//! they submit it, and two workers write it after they take it. Threads are joined by a counter, since the standard
//! library itself is not watched.
#![allow(dead_code)]

extern crate alloc;

#[path = "../../rust/src/place.rs"]
mod place;
#[path = "../../rust/src/shared.rs"]
mod shared;
#[path = "../../rust/src/source/mod.rs"]
#[rustfmt::skip]
mod source;

use source::bitmap_tree::HiddenSeat;
use source::kit::alloc::Global;
use source::kit::opaque::Opaque;
use source::{cubejobs_lanes as jobs, cubejobs_regions as blocks};
use std::cell::UnsafeCell;
use std::mem::forget;
use std::sync::atomic::{AtomicUsize, Ordering::Relaxed, Ordering::SeqCst};
use std::thread::{spawn, yield_now};

const DIM: u32 = 8;
const JOBS: usize = 1 << 15;

/// Plain memory, which nothing guards except what is tested here.
struct Memory([UnsafeCell<u64>; JOBS]);

// SAFETY: none but that of what is tested.
unsafe impl Sync for Memory {}

static OF_PROCESSORS: Memory = Memory([const { UnsafeCell::new(0) }; JOBS]);
static OF_JOBS: Memory = Memory([const { UnsafeCell::new(0) }; JOBS]);
static ENDED: AtomicUsize = AtomicUsize::new(0);

impl Memory {
    /// Adds to the memory of a range, by plain accesses.
    fn touch(&self, from: u64, count: u64) {
        for at in from..from + count {
            // SAFETY: as for `Sync`.
            unsafe { *self.0[at as usize].get() += 1 };
        }
    }
}

/// Runs threads, and waits until all have ended.
fn run(threads: Vec<Box<dyn FnOnce() + Send>>) {
    let count = threads.len();
    ENDED.store(0, SeqCst);
    for thread in threads {
        forget(spawn(move || {
            thread();
            ENDED.fetch_add(1, SeqCst);
        }));
    }
    while ENDED.load(SeqCst) < count {
        yield_now();
    }
}

fn shut() -> jobs::Handle {
    jobs::Handle { tag: 0, ptr: Opaque::nothing(Global) }
}

fn use_blocks(rounds: u64) {
    let seat = HiddenSeat::blank;
    let new = || blocks::Handle { tag: 0, ptr: Opaque::nothing(Global), seat: seat() };
    let mut first = new();
    assert_eq!(blocks::cubejobs_regions_open_version(&mut first, blocks::VERSION, DIM, 1), 0);
    let threads = (0..8).map(|number| {
        let mut handle = new();
        assert_eq!(blocks::cubejobs_regions_share(&mut first, &mut handle), 0);
        let mut block = blocks::BlockHandle { tag: 0, machine: 0, seat: seat() };
        Box::new(move || {
            for round in 0..rounds {
                let k = ((round + number) % 5) as u32;
                let answer = match round % 3 {
                    0 => blocks::cubejobs_regions_take_exact(&mut handle, &mut block, k),
                    _ => blocks::cubejobs_regions_take(&mut handle, &mut block, k),
                };
                if answer.code == 0 {
                    OF_PROCESSORS.touch(answer.base, 1 << k);
                    assert_eq!(blocks::cubejobs_regions_release(&mut handle, &mut block), 0);
                }
            }
            forget((handle, block));
        }) as Box<dyn FnOnce() + Send>
    });
    run(threads.collect());
    forget(first);
}

/// Passes jobs through lanes.
fn use_jobs(rounds: u64) {
    let mut owner = shut();
    let sizes = jobs::LaneSizes { lanes: 2, workers: 2, capacity: 16 };
    assert_eq!(jobs::cubejobs_lanes_open_version(&mut owner, jobs::VERSION, sizes), 0);
    let mut threads: Vec<Box<dyn FnOnce() + Send>> = Vec::new();
    for number in 0..2 {
        let (mut lane, mut worker) = (shut(), shut());
        assert_eq!(jobs::cubejobs_lanes_lane(&mut owner, &mut lane), 0);
        assert_eq!(jobs::cubejobs_lanes_worker(&mut owner, &mut worker), 0);
        threads.push(Box::new(move || produce(&mut lane, number, rounds)));
        threads.push(Box::new(move || work(&mut worker, rounds)));
    }
    TAKEN.store(0, Relaxed);
    run(threads);
    forget(owner);
}

static TAKEN: AtomicUsize = AtomicUsize::new(0);

/// Submits jobs, each with a place of the memory for itself.
fn produce(lane: &mut jobs::Handle, number: u64, rounds: u64) {
    for round in 0..rounds {
        let place = number * rounds + round;
        OF_JOBS.touch(place, 1);
        while jobs::cubejobs_lanes_submit(lane, place, 0).code != 0 {
            yield_now();
        }
    }
    forget(std::mem::replace(lane, shut()));
}

/// Takes jobs until all were taken.
fn work(worker: &mut jobs::Handle, rounds: u64) {
    while TAKEN.load(Relaxed) < 2 * rounds as usize {
        let job = jobs::cubejobs_lanes_take_any(worker, 0);
        if job.code != 0 {
            yield_now();
            continue;
        }
        OF_JOBS.touch(job.payload, 1);
        // This orders nothing, or it would hide races.
        TAKEN.fetch_add(1, Relaxed);
    }
    forget(std::mem::replace(worker, shut()));
}

fn main() {
    let rounds = std::env::args().nth(1).and_then(|word| word.parse().ok()).expect("race ROUNDS");
    match std::env::args().nth(2).as_deref() {
        Some("lanes") => use_jobs(rounds),
        Some("blocks") => use_blocks(rounds),
        word => panic!("{word:?}"),
    }
    println!("{rounds} rounds");
    std::process::exit(0);
}
