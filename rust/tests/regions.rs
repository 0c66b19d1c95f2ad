//! The lock-free library for any number of blocks: refusals, halves, and guards that other threads
//! drop. Many threads use a table of counters, and plain memory that blocks guard. Others wait.

use cubejobs::regions::{Block, Held, Machine, OpenError, TakeError, MAX_DIM};
use cubejobs::Region;
use std::cell::UnsafeCell;
use std::collections::VecDeque;
use std::error::Error;
use std::sync::atomic::{AtomicU32, AtomicU64, Ordering::Relaxed};
use std::sync::mpsc::channel;
use std::sync::{Arc, Barrier, Mutex};
use std::thread;
use std::time::Duration;

const DIM: u32 = 13;
const PROCESSORS: usize = 1 << DIM;
/// More threads than a machine has handles.
const THREADS: u32 = 40;
const TURNS: u64 = 2_000;

fn is_send_and_sync<T: Send + Sync>() {}

#[test]
fn guards_go_to_other_threads() {
    is_send_and_sync::<Machine>();
    is_send_and_sync::<Block<&Machine>>();
    is_send_and_sync::<Held>();
}

#[test]
fn refusals_say_why() {
    assert_eq!(Machine::new(MAX_DIM + 1).unwrap_err(), OpenError::BadDimension);
    let machine = Machine::new(3).unwrap();
    assert_eq!(machine.dim(), 3);
    for take in [Machine::take, Machine::take_exact, Machine::take_or_wait] {
        assert_eq!(take(&machine, 4).unwrap_err(), TakeError::BadDimension);
    }
    let at = |base, dim| machine.take_at(Region { base, dim });
    assert_eq!(at(0, 4).unwrap_err(), TakeError::BadDimension);
    assert_eq!(at(2, 2).unwrap_err(), TakeError::BadBase);
    assert_eq!(at(8, 0).unwrap_err(), TakeError::BadBase);
    let four = at(4, 2).unwrap();
    assert_eq!(four.region(), Region { base: 4, dim: 2 });
    assert_eq!(at(5, 0).unwrap_err(), TakeError::Taken);
    assert_eq!(machine.take_exact(3).unwrap_err(), TakeError::NoRoom);
    assert_eq!(machine.take(3).unwrap_err(), TakeError::NotNow);
    assert_eq!(machine.occupancy().largest, Some(2));
    drop(four);
    let all = machine.take_exact(3).unwrap();
    let occupancy = machine.occupancy();
    assert_eq!((occupancy.held, occupancy.largest, occupancy.free), (8, None, [0; 21]));
    drop(all);
    assert_eq!(machine.occupancy().free[..4], [8, 4, 2, 1]);
    machine.close().unwrap();
}

#[test]
fn each_error_has_a_sentence() {
    use TakeError::*;
    let texts = [BadDimension, BadBase, NoRoom, Taken, NotNow, TimedOut, Stopped].map(|it| it.to_string());
    for (number, text) in texts.iter().enumerate() {
        assert!(!text.is_empty() && !texts[..number].contains(text), "{text}");
    }
    assert_eq!(OpenError::BadDimension.to_string(), "the dimension is past 20");
    assert!(OpenError::OutOfMemory.source().is_none());
}

#[test]
fn halves_are_split_and_joined() {
    let (machine, other) = (Machine::new(4).unwrap(), Machine::new(4).unwrap());
    let eight = machine.take_at(Region { base: 8, dim: 3 }).unwrap();
    let (lower, upper) = eight.split().unwrap();
    assert_eq!(lower.region(), Region { base: 8, dim: 2 });
    assert_eq!(upper.region(), Region { base: 12, dim: 2 });
    let (upper, lower) = upper.join(lower).unwrap_err();
    let foreign = other.take_at(Region { base: 12, dim: 2 }).unwrap();
    let (lower, foreign) = lower.join(foreign).unwrap_err();
    assert_eq!((machine.occupancy().held, other.occupancy().held), (8, 4));
    let eight = lower.join(upper).unwrap();
    assert_eq!(eight.region(), Region { base: 8, dim: 3 });
    drop((eight, foreign));
    assert_eq!((machine.occupancy().held, other.occupancy().held), (0, 0));
    let one = machine.take(0).unwrap();
    assert_eq!(one.split().unwrap_err().region().dim, 0);
    assert_eq!(machine.occupancy().held, 0);
}

#[test]
fn a_forgotten_guard_keeps_its_block() {
    let machine = Machine::new(4).unwrap();
    std::mem::forget(machine.take(2).unwrap());
    assert_eq!(machine.occupancy().held, 4);
    let machine = machine.close().unwrap_err().machine;
    // The machine can be used as before.
    assert_eq!(machine.take(3).unwrap().region(), Region { base: 8, dim: 3 });
    assert_eq!(machine.close().unwrap_err().to_string(), "a block is held that has no guard");
}

#[test]
fn a_region_is_made_a_guard_again() {
    let machine = Arc::new(Machine::new(4).unwrap());
    let region = Held::take(machine.clone(), 3).unwrap().into_raw();
    assert_eq!((Arc::strong_count(&machine), machine.occupancy().held), (1, 8));
    // SAFETY: here and below a region is of a block of this machine, and has no guard.
    let block = unsafe { Block::from_raw(&*machine, region) };
    assert_eq!(machine.take_at(region).unwrap_err(), TakeError::Taken);
    let (lower, upper) = block.split().unwrap();
    assert_eq!((lower.region(), upper.region()), region.halves().unwrap());
    let (lower, upper) = (lower.into_raw(), upper.into_raw());
    // SAFETY: as above. Each half has become a region of its own.
    let [lower, upper] = [lower, upper].map(|it| unsafe { Held::from_raw(machine.clone(), it) });
    let (upper, lower) = upper.join(lower).unwrap_err();
    let block = lower.join(upper).unwrap();
    assert_eq!((block.region(), machine.occupancy().held), (region, 8));
    let region = block.into_raw();
    let machine = Arc::into_inner(machine).unwrap().close().unwrap_err().machine;
    // SAFETY: as above.
    machine.handle().unwrap().release(unsafe { Block::from_raw(&machine, region) }).unwrap();
    assert_eq!(machine.occupancy().free[..5], [16, 8, 4, 2, 1]);
    machine.close().unwrap();
}

#[test]
fn a_region_does_not_name_its_machine() {
    let [one, other] = [0, 1].map(|_| Machine::new(3).unwrap());
    let regions = [&one, &other].map(|it| it.take(1).unwrap().into_raw());
    assert_eq!(regions[0], regions[1]);
    // SAFETY: both machines have returned this region, and each makes one guard of it.
    let [of_one, of_other] = [(&one, regions[1]), (&other, regions[0])]
        .map(|(machine, region)| unsafe { Block::from_raw(machine, region) });
    let upper = other.take_at(Region { base: 2, dim: 1 }).unwrap();
    let (of_one, upper) = of_one.join(upper).unwrap_err();
    drop(of_one);
    assert_eq!((one.occupancy().held, other.occupancy().held), (0, 4));
    drop(of_other.join(upper).unwrap());
    assert_eq!(other.occupancy().held, 0);
}

#[test]
fn a_panic_releases_the_block() {
    let machine = Machine::new(2).unwrap();
    let ended = thread::scope(|scope| {
        let thread = scope.spawn(|| {
            let _all = machine.take(2).unwrap();
            std::panic::resume_unwind(Box::new("a panic"));
        });
        thread.join()
    });
    assert!(ended.is_err());
    assert_eq!(machine.occupancy().held, 0);
}

#[test]
fn a_stored_block_keeps_its_machine() {
    let machine = Arc::new(Machine::new(6).unwrap());
    let weak = Arc::downgrade(&machine);
    let (lower, upper) = Held::take(machine, 6).unwrap().split().unwrap();
    let (sender, receiver) = channel();
    sender.send(lower).unwrap();
    thread::spawn(move || drop(receiver.recv().unwrap())).join().unwrap();
    assert_eq!(weak.upgrade().unwrap().occupancy().held, 32);
    drop(upper);
    assert!(weak.upgrade().is_none());
}

/// A number for each processor, and plain memory of which a block's holder has its part.
struct Table {
    counters: Vec<AtomicU32>,
    plain: Vec<UnsafeCell<u64>>,
}

// SAFETY: a thread writes to the places of `plain` that its block has, and blocks never overlap.
unsafe impl Sync for Table {}

impl Table {
    fn new() -> Table {
        let counters = (0..PROCESSORS).map(|_| AtomicU32::new(0)).collect();
        Table { counters, plain: (0..PROCESSORS).map(|_| UnsafeCell::new(0)).collect() }
    }

    fn write(&self, region: Region) {
        let places = region.range().map(|it| it as usize);
        for p in places.clone() {
            assert_eq!(self.counters[p].fetch_add(1, Relaxed), 0, "two owners of {p}");
            // SAFETY: the caller holds the block.
            unsafe { *self.plain[p].get() += 1 };
        }
        for p in places {
            self.counters[p].fetch_sub(1, Relaxed);
        }
    }
}

fn next(state: &mut u64) -> u64 {
    *state ^= *state << 13;
    *state ^= *state >> 7;
    *state ^= *state << 17;
    *state
}

/// Takes blocks and writes to them. Drops some, splits some, and leaves some for other threads.
fn work(
    machine: &Machine,
    table: &Table,
    left: &Mutex<VecDeque<Held>>,
    all: &Arc<Machine>,
    seed: u64,
) -> u64 {
    let (mut state, mut written) = (seed, 0);
    for _ in 0..TURNS {
        let x = next(&mut state);
        let k = (x % u64::from(DIM + 1)) as u32;
        if (x >> 20) % 4 == 0 {
            let Ok(block) = Held::take_exact(all.clone(), k % 8) else { continue };
            table.write(block.region());
            written += block.region().len();
            let mut left = left.lock().unwrap();
            left.push_back(block);
            let other = if left.len() > 8 { left.pop_front() } else { None };
            drop(left);
            drop(other);
            continue;
        }
        let base = ((x >> 30) % (1 << (DIM - k))) << k;
        let taken = match x >> 22 & 1 {
            0 => machine.take(k),
            _ => machine.take_at(Region { base, dim: k }),
        };
        let Ok(block) = taken else { continue };
        table.write(block.region());
        written += block.region().len();
        if let Ok((lower, upper)) = block.split() {
            if x >> 23 & 1 == 0 {
                drop(lower.join(upper).unwrap());
            } else {
                drop((upper, lower));
            }
        }
    }
    written
}

#[test]
fn blocks_of_many_threads_never_overlap() {
    let machine = Arc::new(Machine::new(DIM).unwrap());
    let (table, left) = (Table::new(), Mutex::new(VecDeque::new()));
    let written: u64 = thread::scope(|scope| {
        let work = |number: u32| work(&machine, &table, &left, &machine, u64::from(number) * 7919 + 1);
        let threads: Vec<_> = (0..THREADS).map(|number| scope.spawn(move || work(number))).collect();
        threads.into_iter().map(|it| it.join().unwrap()).sum()
    });
    left.lock().unwrap().clear();
    assert_eq!(machine.occupancy().held, 0);
    let sum: u64 = table.plain.into_iter().map(UnsafeCell::into_inner).sum();
    assert_eq!(sum, written);
    Arc::into_inner(machine).unwrap().close().unwrap();
}

/// Fails the whole program if `progress` rests for a minute: then a wake is lost.
fn watch(progress: Arc<AtomicU64>) {
    thread::spawn(move || loop {
        let before = progress.load(Relaxed);
        thread::sleep(Duration::from_secs(60));
        if progress.load(Relaxed) == before {
            eprintln!("a wake is lost");
            std::process::exit(1);
        }
    });
}

#[test]
fn waiters_are_all_served() {
    let progress = Arc::new(AtomicU64::new(0));
    watch(progress.clone());
    for dim in [0, 2, 6, 7, 12] {
        let machine = Machine::new(dim).unwrap();
        // Eight blocks that fill the machine are held at once, beside a waiter for all of it.
        let parts = 1 << dim.min(3);
        let barrier = Barrier::new(parts);
        thread::scope(|scope| {
            for _ in 0..parts {
                scope.spawn(|| {
                    for _ in 0..300 {
                        let part = machine.take_or_wait(dim - dim.min(3)).unwrap();
                        barrier.wait();
                        drop(part);
                        progress.fetch_add(1, Relaxed);
                        barrier.wait();
                    }
                });
            }
            scope.spawn(|| {
                for turn in 0..300 {
                    drop(machine.take_or_wait(dim).unwrap());
                    let _ = machine.take_exact(turn % (dim + 1));
                    progress.fetch_add(1, Relaxed);
                }
            });
        });
        machine.close().unwrap();
    }
    progress.fetch_add(1, Relaxed);
}
