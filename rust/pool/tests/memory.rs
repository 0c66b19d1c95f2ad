//! What waits and pools leave in memory. The allocator of this file counts the bytes.

mod common;

use common::{limited, within_ten_seconds, workers, Gate};
use cubejobs_pool::Pool;
use std::alloc::{GlobalAlloc, Layout, System};
use std::fs;
use std::sync::atomic::{AtomicIsize, Ordering::Relaxed};
use std::sync::mpsc::{channel, Receiver, Sender};
use std::sync::Arc;
use std::thread;

/// The allocator of the system, and the number of bytes that are out.
struct Counting;

static BYTES: AtomicIsize = AtomicIsize::new(0);

// SAFETY: each call is that of the allocator of the system.
unsafe impl GlobalAlloc for Counting {
    unsafe fn alloc(&self, layout: Layout) -> *mut u8 {
        BYTES.fetch_add(layout.size() as isize, Relaxed);
        // SAFETY: as the caller promises.
        unsafe { System.alloc(layout) }
    }

    unsafe fn dealloc(&self, place: *mut u8, layout: Layout) {
        BYTES.fetch_sub(layout.size() as isize, Relaxed);
        // SAFETY: as the caller promises.
        unsafe { System.dealloc(place, layout) }
    }

    unsafe fn realloc(&self, place: *mut u8, layout: Layout, size: usize) -> *mut u8 {
        BYTES.fetch_add(size as isize - layout.size() as isize, Relaxed);
        // SAFETY: as the caller promises.
        unsafe { System.realloc(place, layout, size) }
    }
}

#[global_allocator]
static COUNTING: Counting = Counting;

extern "C" {
    fn malloc_trim(pad: usize) -> i32;
}

/// The most bytes that a test leaves.
const MOST_LEFT: isize = 300 << 10;

/// Spawns and joins again and again, in a job. Returns the bytes that this leaves, and the most
/// that were out meanwhile.
fn join_often(pool: &Pool, rounds: usize) -> (isize, isize) {
    let once = |number: usize| assert_eq!(pool.spawn(move || number).join().unwrap(), number);
    (0..1_000).for_each(once);
    let before = BYTES.load(Relaxed);
    let mut most = before;
    for number in 0..rounds {
        once(number);
        most = most.max(BYTES.load(Relaxed));
    }
    (BYTES.load(Relaxed) - before, most - before)
}

/// The way of the jobs that cannot run while another one joins.
#[derive(Clone, Copy, Debug)]
enum Queued {
    Nothing,
    /// Jobs of the job that joins.
    Own,
    /// Jobs of another thread.
    Foreign,
}

fn bytes_left(count: usize, capacity: u64, spares: usize, queued: Queued) -> (isize, isize) {
    let pool = Arc::new(workers(count).lane_capacity(capacity).max_threads(spares).build().unwrap());
    let (begun, go, end) = (Gate::default(), Gate::default(), Gate::default());
    let all = [begun.clone(), go.clone(), end.clone()];
    let inner = pool.clone();
    let joins = pool.spawn(move || {
        let [begun, go, end] = all;
        for _ in 1..inner.workers() {
            let (begun, end) = (begun.clone(), end.clone());
            inner.detach(move || {
                begun.open(1);
                end.pass();
            });
        }
        begun.open(1);
        go.pass();
        if let Queued::Own = queued {
            (0..capacity + 4).for_each(|_| inner.detach(|| ()));
        }
        join_often(&inner, 100_000)
    });
    (0..count).for_each(|_| begun.pass());
    if let Queued::Foreign = queued {
        (0..capacity).for_each(|_| pool.detach(|| ()));
    }
    go.open(1);
    let left = joins.join().unwrap();
    end.open(count);
    left
}

#[test]
fn joins_leave_no_memory() {
    let _limited = limited(200);
    for (count, spares) in [(1, 256), (1, 0), (2, 256), (4, 0)] {
        for capacity in [4, 1024] {
            for queued in [Queued::Nothing, Queued::Own, Queued::Foreign] {
                let (left, most) = bytes_left(count, capacity, spares, queued);
                let case = format!("{count} workers, capacity {capacity}, {queued:?}");
                assert!(left <= MOST_LEFT, "{case}: {left} bytes are left");
                assert!(most <= 4 * MOST_LEFT, "{case}: {most} bytes at once");
            }
        }
    }
}

/// Jobs that end by their successor, and scopes, leave nothing either.
#[test]
fn full_lanes_leave_no_memory() {
    let _limited = limited(200);
    let pool = Arc::new(workers(2).lane_capacity(1).build().unwrap());
    let round = || {
        let inner = pool.clone();
        let all = pool.spawn(move || {
            let mut sums = vec![0; 2_000];
            inner.scope(|scope| {
                sums.iter_mut().enumerate().for_each(|(it, sum)| scope.detach(move || *sum = it));
            });
            sums.into_iter().sum::<usize>()
        });
        assert_eq!(all.join().unwrap(), 1_999_000);
    };
    (0..5).for_each(|_| round());
    let before = BYTES.load(Relaxed);
    (0..50).for_each(|_| round());
    let left = BYTES.load(Relaxed) - before;
    assert!(left <= MOST_LEFT, "{left} bytes are left");
}

/// The first job of a scope has not begun. Its owner joins others.
#[test]
fn a_scope_keeps_no_job_that_was_joined() {
    let _limited = limited(200);
    for spares in [0, 256] {
        let pool = Arc::new(workers(1).max_threads(spares).build().unwrap());
        let inner = pool.clone();
        let all = pool.spawn(move || {
            inner.scope(|scope| {
                scope.detach(|| ());
                let once = |number: usize| assert_eq!(scope.spawn(move || number).join().unwrap(), number);
                (0..1_000).for_each(once);
                let before = BYTES.load(Relaxed);
                (0..100_000).for_each(once);
                BYTES.load(Relaxed) - before
            })
        });
        let left = all.join().unwrap();
        assert!(left <= MOST_LEFT, "{left} bytes are left");
    }
}

/// The worker of the job that joins is held by another one, and the overflow has jobs that cannot
/// run.
#[test]
fn a_job_without_a_worker_leaves_no_memory() {
    let _limited = limited(200);
    let (pool, other) = (Arc::new(workers(1).lane_capacity(4).build().unwrap()), workers(1).build().unwrap());
    let (begun, end, held, go) = (Gate::default(), Gate::default(), Gate::default(), Gate::default());
    let (here, until) = (begun.clone(), end.clone());
    let blocked = other.spawn(move || {
        here.open(1);
        until.pass();
    });
    begun.pass();
    let inner = pool.clone();
    let joins = pool.spawn(move || {
        begun.open(1);
        blocked.join().unwrap();
        (0..10).for_each(|_| inner.detach(|| ()));
        join_often(&inner, 100_000)
    });
    let (is_held, until) = (held.clone(), go.clone());
    pool.detach(move || {
        is_held.open(1);
        until.pass();
    });
    held.pass();
    end.open(1);
    let (left, most) = joins.join().unwrap();
    go.open(1);
    assert!(left <= MOST_LEFT, "{left} bytes are left");
    assert!(most <= 4 * MOST_LEFT, "{most} bytes at once");
}

/// The lane of the worker is full of jobs that cannot run before this one, and the overflow has some
/// too. So each job that is joined goes to the overflow.
#[test]
fn a_worker_leaves_no_memory_in_the_overflow() {
    let _limited = limited(200);
    let pool = Arc::new(workers(1).lane_capacity(4).build().unwrap());
    let inner = pool.clone();
    let joins = pool.spawn(move || {
        (0..10).for_each(|_| inner.detach(|| ()));
        join_often(&inner, 100_000)
    });
    let (left, most) = joins.join().unwrap();
    assert!(left <= MOST_LEFT, "{left} bytes are left");
    assert!(most <= 4 * MOST_LEFT, "{most} bytes at once");
}

/// Returns the bytes of this process that are in memory, after all that is free was given back.
fn resident() -> usize {
    // SAFETY: the function of glibc may be called at any time.
    unsafe { malloc_trim(0) };
    let all = fs::read_to_string("/proc/self/status").unwrap();
    let line = all.lines().find_map(|line| line.strip_prefix("VmRSS:")).unwrap();
    line.trim().trim_end_matches(" kB").parse::<usize>().unwrap() << 10
}

/// Starts a thread that submits to each pool that it gets, and lives on.
fn submitter(done: Sender<usize>) -> Sender<Arc<Pool>> {
    let (give, pools) = channel::<Arc<Pool>>();
    thread::spawn(move || {
        for pool in pools {
            let sum = pool.spawn(|| 3).join().unwrap() + pool.run(0, |_| 4)[0];
            drop(pool);
            done.send(sum).unwrap();
        }
    });
    give
}

/// Builds a pool, uses each of its lanes, passes it to these threads, and drops it.
fn use_a_pool(threads: &[Sender<Arc<Pool>>], sums: &Receiver<usize>) {
    let pool = Arc::new(Pool::builder().workers_log2(8).build().unwrap());
    pool.run(8, |group| group.barrier());
    let inner = pool.clone();
    pool.spawn(move || (0..5_000).for_each(|_| inner.detach(|| ()))).join().unwrap();
    threads.iter().for_each(|thread| thread.send(pool.clone()).unwrap());
    let sum: usize = sums.iter().take(threads.len()).sum();
    assert_eq!(sum, 7 * threads.len());
    // A job may have its share for a moment after its end.
    assert!(within_ten_seconds(|| Arc::strong_count(&pool) == 1));
    Arc::into_inner(pool).unwrap().close();
}

/// The last pool of each thread is another one.
#[test]
fn a_dropped_pool_frees_its_lanes() {
    let _limited = limited(200);
    let (done, sums) = channel();
    let threads: Vec<_> = (0..10).map(|_| submitter(done.clone())).collect();
    // What the allocator and the stacks of threads keep is not counted. This thread ends.
    let (_, none) = channel();
    thread::spawn(move || (0..2).for_each(|_| use_a_pool(&[], &none))).join().unwrap();
    let before = resident();
    (0..threads.len()).for_each(|first| use_a_pool(&threads[first..], &sums));
    let grown = resident().saturating_sub(before);
    // If each thread keeps the lanes of its last pool, 54 MiB stay. Beside other work 9 MiB were seen.
    assert!(grown < 16 << 20, "ten pools that were dropped left {} KiB", grown >> 10);
}
