//! Memory of the lock-free libraries. Machines, blocks, lanes and handles that are dropped in any
//! order leave no memory behind. Each request for memory is refused in turn, which is an error and leaves none
//! behind.
//!
//! `malloc` and `free` of this program are those below, for Rust and for the library alike.

use cubejobs::lanes::{self, DealError, Lanes, Sizes};
use cubejobs::plan::{self, Options, Planner, Request};
use cubejobs::regions::{Held, Machine, OpenError, TakeError};
use cubejobs::sched::{self, Scheduler};
use std::cell::Cell;
use std::ffi::c_void;
use std::fmt::Debug;
use std::sync::atomic::{AtomicI64, Ordering::SeqCst};
use std::sync::{Arc, Barrier, Mutex};
use std::thread;

extern "C" {
    fn __libc_malloc(size: usize) -> *mut c_void;
    fn __libc_memalign(align: usize, size: usize) -> *mut c_void;
    fn __libc_free(block: *mut c_void);
}

/// The number of blocks that were allocated in a `counting` call and not freed in one, by any
/// thread.
static LIVE: AtomicI64 = AtomicI64::new(0);

thread_local! {
    static IS_COUNTING: Cell<bool> = const { Cell::new(false) };
    /// The number of further requests of this thread that are granted.
    static LEFT: Cell<u64> = const { Cell::new(u64::MAX) };
}

/// Calls `act`, and counts what this thread allocates and frees meanwhile.
fn counting<T>(act: impl FnOnce() -> T) -> T {
    IS_COUNTING.set(true);
    let result = act();
    IS_COUNTING.set(false);
    result
}

/// Calls `act`, and grants its first `left` requests for memory.
fn with_requests<T>(left: u64, act: impl FnOnce() -> T) -> T {
    LEFT.set(left);
    let result = counting(act);
    LEFT.set(u64::MAX);
    result
}

fn is_refused() -> bool {
    let left = LEFT.get();
    if left < u64::MAX {
        LEFT.set(left.saturating_sub(1));
    }
    left == 0
}

fn count(block: *mut c_void, change: i64) {
    if IS_COUNTING.get() && !block.is_null() {
        LIVE.fetch_add(change, SeqCst);
    }
}

#[no_mangle]
extern "C" fn malloc(size: usize) -> *mut c_void {
    if is_refused() {
        return std::ptr::null_mut();
    }
    // SAFETY: any size is allowed.
    let block = unsafe { __libc_malloc(size) };
    count(block, 1);
    block
}

/// Allocates aligned memory, as an `Arc` of a machine does.
///
/// # Safety
/// The block's address can be written to `place`.
#[no_mangle]
unsafe extern "C" fn posix_memalign(place: *mut *mut c_void, align: usize, size: usize) -> i32 {
    // SAFETY: any size is allowed, and the alignment is one of Rust.
    let block = unsafe { __libc_memalign(align, size) };
    count(block, 1);
    // SAFETY: as the caller promises.
    unsafe { place.write(block) };
    0
}

/// Frees a block.
///
/// # Safety
/// The block is null, or comes from the C library and is not freed yet.
#[no_mangle]
unsafe extern "C" fn free(block: *mut c_void) {
    count(block, -1);
    // SAFETY: as the caller promises.
    unsafe { __libc_free(block) };
}

fn blocks_leave_no_memory_behind() {
    for round in 0..200 {
        let (machine, one, other) = counting(|| {
            let machine = Arc::new(Machine::new(4).unwrap());
            let one = Held::take(machine.clone(), 1).unwrap();
            let other = Held::take(machine.clone(), 2).unwrap();
            (machine, one, other)
        });
        assert!(LIVE.load(SeqCst) >= 3, "the blocks of an open machine are not counted");
        // Any of the three threads may be the last owner.
        thread::scope(|scope| {
            scope.spawn(|| counting(|| drop(machine)));
            scope.spawn(|| counting(|| drop(one)));
            scope.spawn(|| counting(|| drop(other)));
        });
        assert_eq!(LIVE.load(SeqCst), 0, "after round {round}");
    }
}

/// Calls `make` with each request for memory refused in turn. Returns what it makes when none is
/// refused, and the number of its requests.
fn refuse_each<T, E: Copy + PartialEq + Debug>(
    refusal: E,
    mut make: impl FnMut() -> Result<T, E>,
) -> (T, u64) {
    let before = LIVE.load(SeqCst);
    for allowed in 0.. {
        match with_requests(allowed, &mut make) {
            Ok(result) => return (result, allowed),
            Err(error) => {
                assert_eq!((error, LIVE.load(SeqCst)), (refusal, before), "after {allowed} requests");
            }
        }
    }
    unreachable!()
}

fn refused_requests_are_errors() {
    let open = || Machine::new(13);
    let (machine, of_open) = refuse_each(OpenError::OutOfMemory, open);
    assert!(of_open >= 2, "{of_open} requests");
    // A thread's own handle is refused, so the calls borrow the first one.
    with_requests(0, || {
        let (lower, upper) = machine.take(6).unwrap().split().unwrap();
        assert_eq!(machine.take_exact(13).unwrap_err(), TakeError::NoRoom);
        drop(lower.join(upper).unwrap());
    });
    let before = LIVE.load(SeqCst);
    counting(|| drop(machine.take(0).unwrap()));
    assert!(LIVE.load(SeqCst) > before, "the thread has no handle of its own");
    // From then on no call makes a request.
    with_requests(0, || {
        drop(machine.take(13).unwrap());
        assert_eq!(machine.occupancy().held, 0);
    });
    thread::scope(|scope| {
        for _ in 0..8 {
            // A quick take may be refused at any time.
            scope.spawn(|| counting(|| while machine.take(3).is_err() {}));
        }
    });
    counting(|| drop(machine));
    assert_eq!(LIVE.load(SeqCst), 0);
}

fn at_most_32_calls_of_a_machine_allocate() {
    const THREADS: usize = 64;
    let machine = counting(|| Machine::new(3).unwrap());
    let (all, allocated) = (Barrier::new(THREADS), AtomicI64::new(0));
    let turn = Mutex::new(());
    thread::scope(|scope| {
        for _ in 0..THREADS {
            scope.spawn(|| {
                // All threads live at once, so that each has a stack of its own. They call in turn.
                all.wait();
                for _ in 0..2 {
                    let _turn = turn.lock().unwrap();
                    let before = LIVE.load(SeqCst);
                    counting(|| drop(machine.take_exact(0).unwrap()));
                    allocated.fetch_add((LIVE.load(SeqCst) > before).into(), SeqCst);
                }
            });
        }
    });
    let allocated = allocated.into_inner();
    assert!((2..=32).contains(&allocated), "{allocated} calls have allocated");
    counting(|| drop(machine));
    assert_eq!(LIVE.load(SeqCst), 0);
}

fn handles_of_threads_leave_no_memory_behind() {
    let machine = counting(|| Machine::new(3).unwrap());
    let (mut handle, requests) = refuse_each(OpenError::OutOfMemory, || machine.handle());
    assert!(requests > 0, "a handle takes no memory");
    with_requests(0, || {
        let block = handle.take(3).unwrap();
        assert_eq!(handle.take_exact(0).unwrap_err(), TakeError::NoRoom);
        let (lower, upper) = handle.split(block).unwrap();
        let whole = handle.join(lower, upper).unwrap();
        handle.release(whole).unwrap();
        drop(handle);
    });
    let before = LIVE.load(SeqCst);
    for _ in 0..100 {
        counting(|| drop(machine.handle().unwrap()));
        assert_eq!(LIVE.load(SeqCst), before);
    }
    counting(|| drop(machine));
    assert_eq!(LIVE.load(SeqCst), 0);
}

const SIZES: Sizes = Sizes { lanes: 2, workers: 2, capacity: 4 };

fn lanes_leave_no_memory_behind() {
    for round in 0..200 {
        let (lanes, mut lane, other, mut worker) = counting(|| {
            let lanes = Lanes::<Box<u64>>::new(SIZES).unwrap();
            let (lane, other) = (lanes.lane().unwrap(), lanes.lane().unwrap());
            let worker = lanes.worker().unwrap();
            (lanes, lane, other, worker)
        });
        counting(|| (0..3).for_each(|number| assert!(lane.submit(Box::new(number), 0).is_ok())));
        assert!(LIVE.load(SeqCst) >= 7, "the jobs of open lanes are not counted");
        // Any of the four threads may drop the last handle, and with it a job that is left.
        thread::scope(|scope| {
            scope.spawn(|| counting(|| drop(lanes)));
            scope.spawn(|| counting(|| drop(lane)));
            scope.spawn(|| counting(|| drop(other)));
            scope.spawn(|| {
                counting(|| {
                    drop(worker.take(0).unwrap());
                    drop(worker);
                });
            });
        });
        assert_eq!(LIVE.load(SeqCst), 0, "after round {round}");
    }
}

fn refused_requests_of_lanes_are_errors() {
    let (lanes, of_open) = refuse_each(lanes::OpenError::OutOfMemory, || Lanes::<u64>::new(SIZES));
    assert!(of_open >= 3, "{of_open} requests");
    let (mut lane, _) = refuse_each(DealError::OutOfMemory, || lanes.lane());
    let (mut worker, _) = refuse_each(DealError::OutOfMemory, || lanes.worker());
    // From then on no call makes a request, the end among them.
    with_requests(0, || {
        (0..4).for_each(|number| assert!(lane.submit(number, 0).is_ok()));
        assert_eq!(worker.take_any(0).unwrap().payload, 0);
        drop((lane, worker));
        assert_eq!(lanes.finish().unwrap().count(), 3);
    });
    assert_eq!(LIVE.load(SeqCst), 0);
}

fn a_planner_leaves_no_memory_behind() {
    for round in 0..200 {
        let mut planner = counting(|| Planner::new(Options::new(3, 4)).unwrap());
        let tickets =
            counting(|| [0, 1, 2].map(|number| planner.submit(Request::new(8), Box::new(number)).unwrap()));
        assert!(LIVE.load(SeqCst) >= 3, "the jobs of a planner are not counted");
        counting(|| drop(planner.cancel(tickets[1]).unwrap()));
        thread::scope(|scope| {
            scope.spawn(|| counting(|| drop(planner)));
        });
        assert_eq!(LIVE.load(SeqCst), 0, "after round {round}");
    }
}

fn refused_requests_of_a_planner_are_errors() {
    let open = || Planner::new(Options::new(3, 5));
    let (mut planner, of_open) = refuse_each(plan::OpenError::OutOfMemory, open);
    assert!(of_open >= 2, "{of_open} requests");
    // From then on no call makes a request.
    with_requests(0, || {
        for number in 0..100 {
            let ticket = planner.submit(Request::new(1), number).unwrap();
            if planner.submit(Request::new(8).estimate(7), number).is_err() {
                assert_eq!(planner.cancel(ticket).unwrap(), number);
            }
            let start = planner.next(number).unwrap();
            if let Some(ticket) = start.map(|it| it.ticket).filter(|_| number % 5 > 0) {
                planner.finish(ticket).unwrap();
            }
            assert!(planner.jobs().count() <= 5);
        }
        drop(planner);
    });
    assert_eq!(LIVE.load(SeqCst), 0);
}

fn a_scheduler_leaves_no_memory_behind() {
    for round in 0..200 {
        let scheduler = counting(|| {
            let scheduler = Scheduler::new(sched::Options::new(3, 4, 2)).unwrap();
            for number in 0..4 {
                assert!(scheduler.submit(Box::new(number), sched::Request::new(8)).is_ok());
            }
            scheduler
        });
        assert!(LIVE.load(SeqCst) >= 4, "the jobs of a scheduler are not counted");
        counting(|| {
            let mut worker = scheduler.worker().unwrap();
            assert_eq!(**worker.next().unwrap(), 0);
            std::mem::forget(worker);
            if round % 2 == 0 {
                scheduler.close(sched::Waiting::Run);
            }
        });
        thread::scope(|scope| {
            scope.spawn(|| counting(|| drop(scheduler)));
        });
        assert_eq!(LIVE.load(SeqCst), 0, "after round {round}");
    }
}

fn a_scheduler_with_a_forgotten_job_leaves_no_memory_behind() {
    counting(|| {
        let scheduler = Scheduler::new(sched::Options::new(3, 4, 2)).unwrap();
        (0..4).for_each(|number| assert!(scheduler.submit(number, sched::Request::new(8)).is_ok()));
        let mut worker = scheduler.worker().unwrap();
        std::mem::forget(worker.next().unwrap());
        std::mem::forget(worker);
    });
    assert_eq!(LIVE.load(SeqCst), 0);
}

fn refused_requests_of_a_scheduler_are_errors() {
    let open = || Scheduler::new(sched::Options::new(3, 5, 2));
    let (scheduler, of_open) = refuse_each(sched::OpenError::OutOfMemory, open);
    assert!(of_open >= 4, "{of_open} requests");
    // From then on no call makes a request.
    with_requests(0, || {
        for number in 0..100 {
            let ticket = scheduler.submit(number, sched::Request::new(1)).unwrap();
            if scheduler.try_submit(number, sched::Request::new(8)).is_ok() && number % 5 == 0 {
                assert_eq!(scheduler.cancel(ticket).unwrap(), number);
            }
            let mut worker = scheduler.worker().unwrap();
            while let Ok(job) = worker.try_next() {
                assert_eq!(job.into_job(), number);
            }
        }
        drop(scheduler);
    });
    assert_eq!(LIVE.load(SeqCst), 0);
}

// One test, since the count is for all threads.
#[test]
fn memory() {
    blocks_leave_no_memory_behind();
    refused_requests_are_errors();
    at_most_32_calls_of_a_machine_allocate();
    handles_of_threads_leave_no_memory_behind();
    lanes_leave_no_memory_behind();
    refused_requests_of_lanes_are_errors();
    a_planner_leaves_no_memory_behind();
    refused_requests_of_a_planner_are_errors();
    a_scheduler_leaves_no_memory_behind();
    a_scheduler_with_a_forgotten_job_leaves_no_memory_behind();
    refused_requests_of_a_scheduler_are_errors();
}
