//! Waits for blocks that end: by a block, by their time, or by a stop.

use cubejobs::regions::{Block, Held, Machine, TakeError};
use std::sync::atomic::{AtomicU32, AtomicU64, Ordering::SeqCst};
use std::sync::Arc;
use std::thread;
use std::time::{Duration, Instant};

const DIM: u32 = 3;
const THREADS: u64 = 16;
const DEADLINES: u64 = 10_000;
const SEED: u64 = 0x9e37_79b9_7f4a_7c15;
/// Time in which a thread that was started is asleep, unless it sleeps for longer elsewhere.
const A_WHILE: Duration = Duration::from_millis(50);

/// Fails the whole program if the guard is not dropped within two minutes.
struct Watch(Arc<AtomicU32>);

fn watch(what: &'static str) -> Watch {
    let ended = Arc::new(AtomicU32::new(0));
    let seen = ended.clone();
    thread::spawn(move || {
        let start = Instant::now();
        while seen.load(SeqCst) == 0 {
            if start.elapsed() > Duration::from_secs(120) {
                eprintln!("{what} does not end");
                std::process::exit(1);
            }
            thread::sleep(Duration::from_millis(20));
        }
    });
    Watch(ended)
}

impl Drop for Watch {
    fn drop(&mut self) {
        self.0.store(1, SeqCst);
    }
}

fn next(state: &mut u64) -> u64 {
    *state ^= *state << 13;
    *state ^= *state >> 7;
    *state ^= *state << 17;
    *state
}

/// Notes that this thread has the block, and that no other thread has a part of it.
fn own(owners: &[AtomicU32], block: &Block<&Machine>, number: u32) {
    for p in block.region().range() {
        let before = owners[p as usize].swap(number, SeqCst);
        assert_eq!(before, 0, "{p} has two owners, seed {SEED}");
    }
}

fn disown(owners: &[AtomicU32], block: &Block<&Machine>) {
    block.region().range().for_each(|p| owners[p as usize].store(0, SeqCst));
}

#[test]
fn random_times_end_with_a_block_or_at_their_end() {
    let _watch = watch("a wait with a time");
    let machine = Machine::new(DIM).unwrap();
    let owners: Vec<_> = (0..1 << DIM).map(|_| AtomicU32::new(0)).collect();
    let [taken, timed_out] = [const { AtomicU64::new(0) }; 2];
    thread::scope(|scope| {
        for number in 1..=THREADS {
            let (machine, owners, taken, timed_out) = (&machine, &owners, &taken, &timed_out);
            scope.spawn(move || {
                let mut state = SEED ^ number;
                for _ in 0..DEADLINES / THREADS {
                    let x = next(&mut state);
                    let timeout = Duration::from_micros(x >> 8 & 0x3ff);
                    let start = Instant::now();
                    match machine.take_timeout((x % u64::from(DIM + 1)) as u32, timeout) {
                        Ok(block) => {
                            own(owners, &block, number as u32);
                            thread::sleep(Duration::from_micros(x >> 20 & 0x7f));
                            disown(owners, &block);
                            taken.fetch_add(1, SeqCst);
                        }
                        Err(error) => {
                            assert_eq!(error, TakeError::TimedOut, "seed {SEED}");
                            assert!(start.elapsed() >= timeout, "{timeout:?} is not over, seed {SEED}");
                            timed_out.fetch_add(1, SeqCst);
                        }
                    }
                }
            });
        }
    });
    let (taken, timed_out) = (taken.into_inner(), timed_out.into_inner());
    assert_eq!(taken + timed_out, DEADLINES);
    assert!(taken > 0 && timed_out > 0, "{taken} blocks, and {timed_out} ends of a time");
    machine.close().unwrap();
}

#[test]
fn a_time_of_any_length_will_do() {
    let _watch = watch("a wait without an end");
    let machine = Arc::new(Machine::new(DIM).unwrap());
    assert_eq!(machine.take_timeout(DIM + 1, Duration::MAX).unwrap_err(), TakeError::BadDimension);
    let all = machine.take_timeout(DIM, Duration::ZERO).unwrap();
    assert_eq!(machine.take_timeout(0, Duration::ZERO).unwrap_err(), TakeError::TimedOut);
    thread::scope(|scope| {
        for timeout in [Duration::MAX, Duration::MAX / 2, Duration::from_secs(1 << 40)] {
            let machine = machine.clone();
            scope.spawn(move || Held::take_timeout(machine, 1, timeout).unwrap());
        }
        thread::sleep(A_WHILE);
        drop(all);
    });
    assert_eq!(machine.occupancy().held, 0);
}

#[test]
fn a_block_that_is_released_in_time_is_found() {
    let _watch = watch("a wait for a block");
    let machine = Machine::new(DIM).unwrap();
    let all = machine.take(DIM).unwrap();
    thread::scope(|scope| {
        let waiter = scope.spawn(|| machine.take_timeout(0, Duration::from_secs(100)).map(drop));
        thread::sleep(A_WHILE);
        drop(all);
        assert_eq!(waiter.join().unwrap(), Ok(()));
    });
}

/// Waits in three ways. Each returns `Stopped`.
fn must_be_stopped(machine: &Arc<Machine>, k: u32) {
    let refusals = [
        machine.take_or_wait(k).map(drop),
        machine.take_timeout(k, Duration::MAX).map(drop),
        Held::take_or_wait(machine.clone(), k).map(drop),
    ];
    assert_eq!(refusals, [Err(TakeError::Stopped); 3]);
}

#[test]
fn a_stop_ends_each_wait() {
    let _watch = watch("a wait that was stopped");
    let machine = Arc::new(Machine::new(DIM).unwrap());
    let all = machine.take(DIM).unwrap();
    thread::scope(|scope| {
        for number in 0..THREADS {
            let machine = &machine;
            scope.spawn(move || {
                let refused = match number % 2 {
                    0 => machine.take_or_wait(0),
                    _ => machine.take_timeout(DIM, Duration::MAX),
                };
                assert_eq!(refused.unwrap_err(), TakeError::Stopped);
                // Later waits end too.
                must_be_stopped(machine, 0);
            });
        }
        thread::sleep(A_WHILE);
        machine.stop_waits();
    });
    drop(all);
    // A free block makes no difference, and neither does a second stop.
    must_be_stopped(&machine, 0);
    machine.stop_waits();
    must_be_stopped(&machine, DIM + 1);
    // Other calls go on.
    drop(machine.take(DIM).unwrap());
    drop(machine.take_exact(0).unwrap());
    assert_eq!(machine.occupancy().held, 0);
}

#[test]
fn a_stop_before_all_waits_ends_them() {
    let machine = Arc::new(Machine::new(DIM).unwrap());
    machine.stop_waits();
    must_be_stopped(&machine, 0);
    Arc::into_inner(machine).unwrap().close().unwrap();
}

#[test]
fn a_stop_at_any_moment_loses_no_block() {
    let _watch = watch("a wait beside a stop");
    let mut state = SEED;
    for _ in 0..100 {
        let machine = Machine::new(1).unwrap();
        let owners: Vec<_> = (0..2).map(|_| AtomicU32::new(0)).collect();
        thread::scope(|scope| {
            for number in 1..=4 {
                let (machine, owners) = (&machine, &owners);
                scope.spawn(move || loop {
                    match machine.take_or_wait(number % 2) {
                        Ok(block) => {
                            own(owners, &block, number);
                            disown(owners, &block);
                        }
                        Err(error) => return assert_eq!(error, TakeError::Stopped, "seed {SEED}"),
                    }
                });
            }
            thread::sleep(Duration::from_micros(next(&mut state) % 1000));
            machine.stop_waits();
        });
        machine.close().unwrap();
    }
}
