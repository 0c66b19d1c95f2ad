//! Handles of a machine that a thread has for itself.

use cubejobs::regions::{Block, Handle, Held, Machine, TakeError};
use cubejobs::Region;
use std::mem::forget;
use std::sync::atomic::{AtomicU32, Ordering::SeqCst};
use std::sync::{Arc, Mutex};
use std::thread;
use std::time::Duration;

const THREADS: usize = 8;
const DIM: u32 = 8;
const TURNS: u32 = 2_000;

#[test]
fn a_handle_makes_each_call() {
    let machine = Machine::new(3).unwrap();
    let mut handle = machine.handle().unwrap();
    assert!(std::ptr::eq(handle.machine(), &raw const machine));
    assert_eq!(handle.take(4).unwrap_err(), TakeError::BadDimension);
    assert_eq!(handle.take_exact(4).unwrap_err(), TakeError::BadDimension);
    assert_eq!(handle.take_or_wait(4).unwrap_err(), TakeError::BadDimension);
    assert_eq!(handle.take_at(Region { base: 2, dim: 2 }).unwrap_err(), TakeError::BadBase);
    let four = handle.take_at(Region { base: 4, dim: 2 }).unwrap();
    assert_eq!(handle.take_at(Region { base: 5, dim: 0 }).unwrap_err(), TakeError::Taken);
    assert_eq!(handle.take_exact(3).unwrap_err(), TakeError::NoRoom);
    assert_eq!(handle.take(3).unwrap_err(), TakeError::NotNow);
    assert_eq!(handle.take_timeout(3, Duration::ZERO).unwrap_err(), TakeError::TimedOut);
    assert_eq!((handle.occupancy().held, handle.occupancy().largest), (4, Some(2)));
    let (lower, upper) = handle.split(four).unwrap();
    assert_eq!((lower.region(), upper.region()), (Region { base: 4, dim: 1 }, Region { base: 6, dim: 1 }));
    let (upper, lower) = handle.join(upper, lower).unwrap_err();
    let four = handle.join(lower, upper).unwrap();
    assert_eq!(four.region(), Region { base: 4, dim: 2 });
    handle.release(four).unwrap();
    assert_eq!(machine.occupancy().held, 0);
    let one = handle.take(0).unwrap();
    let one = handle.split(one).unwrap_err();
    handle.release(one).unwrap();
    machine.stop_waits();
    assert_eq!(handle.take_or_wait(0).unwrap_err(), TakeError::Stopped);
    drop(handle);
    machine.close().unwrap();
}

#[test]
fn a_release_wakes_a_thread_that_waits() {
    let machine = Machine::new(0).unwrap();
    let (mut one, mut other) = (machine.handle().unwrap(), machine.handle().unwrap());
    let block = one.take(0).unwrap();
    thread::scope(|scope| {
        let waiter = scope.spawn(move || {
            let block = other.take_or_wait(0).unwrap();
            other.release(block).unwrap();
        });
        thread::sleep(Duration::from_millis(50));
        one.release(block).unwrap();
        waiter.join().unwrap();
    });
    assert_eq!(one.occupancy().held, 0);
}

#[test]
fn a_block_is_valid_after_its_handle() {
    let machine = Arc::new(Machine::new(3).unwrap());
    let mut handle = Handle::new(machine.clone()).unwrap();
    let (one, other): (Held, Held) = (handle.take(0).unwrap(), handle.take(1).unwrap());
    // A guard of a borrowed machine, which no handle has taken.
    let third = machine.take(0).unwrap();
    handle.release(third).unwrap();
    drop(handle);
    drop(one);
    assert_eq!(machine.occupancy().held, 2);
    Handle::new(machine.clone()).unwrap().release(other).unwrap();
    Arc::into_inner(machine).unwrap().close().unwrap();
}

#[test]
fn a_block_of_another_machine_comes_back() {
    let (machine, other) = (Machine::new(2).unwrap(), Machine::new(2).unwrap());
    let (mut handle, mut foreign) = (machine.handle().unwrap(), other.handle().unwrap());
    let [lower, upper] = [0, 2].map(|base| foreign.take_at(Region { base, dim: 1 }).unwrap());
    let lower = handle.release(lower).unwrap_err();
    let lower = handle.split(lower).unwrap_err();
    let (lower, upper) = handle.join(lower, upper).unwrap_err();
    let own = handle.take_at(Region { base: 2, dim: 1 }).unwrap();
    let (lower, own) = handle.join(lower, own).unwrap_err();
    let (lower, own) = foreign.join(lower, own).unwrap_err();
    assert_eq!((handle.occupancy().held, foreign.occupancy().held), (2, 4));
    let whole = foreign.join(lower, upper).unwrap();
    foreign.release(whole).unwrap();
    drop(own);
    assert_eq!((handle.occupancy().held, foreign.occupancy().held), (0, 0));
}

#[test]
fn a_close_sees_held_blocks_beside_a_forgotten_handle() {
    let machine = Machine::new(4).unwrap();
    forget(machine.handle().unwrap());
    let block = machine.take(2).unwrap();
    forget(block);
    let machine = machine.close().unwrap_err().machine;
    assert_eq!(machine.occupancy().held, 4);
    assert_eq!(machine.take_exact(4).unwrap_err(), TakeError::NoRoom);
    assert_eq!(machine.handle().unwrap().take(3).unwrap().region(), Region { base: 8, dim: 3 });
    // A forgotten handle alone is no error.
    let machine = Machine::new(4).unwrap();
    forget(machine.handle().unwrap());
    machine.close().unwrap();
}

/// Marks the processors of a block as those of a thread, or of none. They were those of none before,
/// or of one.
fn mark(owners: &[AtomicU32], block: &Block<&Machine>, number: u32) {
    for p in block.region().range() {
        let before = owners[p as usize].swap(number, SeqCst);
        assert_ne!(before == 0, number == 0, "two owners of {p}, or none");
    }
}

#[test]
fn handles_of_many_threads_share_a_machine() {
    let machine = Machine::new(DIM).unwrap();
    let owners: Vec<_> = (0..1 << DIM).map(|_| AtomicU32::new(0)).collect();
    let inboxes: Vec<_> = (0..THREADS).map(|_| Mutex::new(Vec::new())).collect();
    thread::scope(|scope| {
        for number in 0..THREADS {
            let (owners, inbox, next) = (&owners, &inboxes[number], &inboxes[(number + 1) % THREADS]);
            let mut handle = machine.handle().unwrap();
            scope.spawn(move || {
                for turn in 0..TURNS {
                    let Ok(block) = handle.take((turn + number as u32) % DIM) else { continue };
                    mark(owners, &block, number as u32 + 1);
                    // Each second block is passed on, and one of another thread is released.
                    let passed = (turn % 2 > 0).then(|| inbox.lock().unwrap().pop());
                    let block = match passed {
                        None => Some(block),
                        Some(other) => {
                            next.lock().unwrap().push(block);
                            other
                        }
                    };
                    let Some(block) = block else { continue };
                    mark(owners, &block, 0);
                    handle.release(block).unwrap();
                }
            });
        }
    });
    let left: Vec<_> = inboxes.into_iter().flat_map(|it| it.into_inner().unwrap()).collect();
    let held: u64 = left.iter().map(|it: &Block<_>| it.region().len()).sum();
    assert_eq!(machine.occupancy().held, held);
    drop(left);
    machine.close().unwrap();
}
