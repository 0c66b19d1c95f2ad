//! What a job does that waits, and what it never does. The measure of each test: a program that
//! ends when each job has its own thread ends in the pool.

mod common;

use common::{expect_panics, limited, text, threads, within_ten_seconds, workers, Gate};
use cubejobs_pool::{Builder, Cancelled, Group, Pool, Reason, ScopeTicket, Ticket};
use std::cell::{Cell, RefCell};
use std::collections::HashSet;
use std::env;
use std::hint::black_box;
use std::panic::{catch_unwind, AssertUnwindSafe};
use std::process::Command;
use std::sync::atomic::{AtomicBool, AtomicUsize, Ordering::SeqCst};
use std::sync::mpsc::{channel, Receiver, Sender};
use std::sync::{Arc, Barrier, Mutex};
use std::thread::{self, ThreadId};
use std::time::{Duration, Instant};

/// Returns a pool of this number of workers, and this number of spare threads.
fn pool_with(count: usize, spares: usize) -> Arc<Pool> {
    shared(workers(count).max_threads(spares))
}

fn shared(builder: Builder) -> Arc<Pool> {
    Arc::new(builder.build().unwrap())
}

fn add(sum: &AtomicUsize, number: usize) {
    sum.fetch_add(number, SeqCst);
}

/// Makes jobs each of which joins the ticket of the one before. Returns the last result.
fn chain(pool: &Pool, length: usize) -> usize {
    let first = pool.spawn(|| {
        thread::sleep(Duration::from_millis(10));
        1
    });
    let last = (1..length).fold(first, |before, _| pool.spawn(move || before.join().unwrap() + 1));
    last.join().unwrap()
}

#[test]
fn chained_tickets_end() {
    let _limited = limited(200);
    for count in [1, 2, 4] {
        for spares in [256, 0] {
            let pool = pool_with(count, spares);
            for length in [3, 8, 50, 5_000] {
                assert_eq!(chain(&pool, length), length);
                let inner = pool.clone();
                assert_eq!(pool.spawn(move || chain(&inner, length)).join().unwrap(), length);
            }
        }
    }
}

type Table = Arc<Vec<Mutex<Option<Ticket<usize>>>>>;

/// Holds all workers of a pool until the gate has a permit for each.
fn hold(pool: &Pool) -> Gate {
    let (begun, go) = (Gate::default(), Gate::default());
    for _ in 0..pool.workers() {
        let (begun, go) = (begun.clone(), go.clone());
        pool.detach(move || {
            begun.open(1);
            go.pass();
        });
    }
    (0..pool.workers()).for_each(|_| begun.pass());
    go
}

/// Each job waits for the one that is queued after it.
#[test]
fn tickets_of_later_jobs_end() {
    const LENGTH: usize = 1_000;
    let _limited = limited(30);
    for (count, spares) in [(1, 256), (1, 0), (2, 256), (4, 0), (4, 256)] {
        let pool = pool_with(count, spares);
        let go = hold(&pool);
        let table: Table = Arc::new((0..=LENGTH).map(|_| Mutex::new(None)).collect());
        for number in 0..LENGTH {
            let later = table.clone();
            let job = move || {
                let next = later[number + 1].lock().unwrap().take();
                next.map_or(0, |ticket| ticket.join().unwrap()) + 1
            };
            *table[number].lock().unwrap() = Some(pool.spawn(job));
        }
        go.open(count);
        let first = table[0].lock().unwrap().take().unwrap();
        assert_eq!(first.join().unwrap(), LENGTH);
    }
}

/// Spawns these jobs while a lock is held that they take, by one of three ways.
fn spawn_over_a_lock(pool: &Pool, lock: &Arc<Mutex<usize>>, kind: usize, jobs: usize) {
    let held = lock.lock().unwrap();
    let count = || {
        let lock = lock.clone();
        move || *lock.lock().unwrap() += 1
    };
    match kind {
        0 => {
            let tickets: Vec<_> = (0..jobs).map(|_| pool.spawn(count())).collect();
            drop(held);
            tickets.into_iter().for_each(|ticket| ticket.join().unwrap());
        }
        1 => (0..jobs).for_each(|_| pool.detach(count())),
        _ => pool.scope(|scope| {
            (0..jobs).for_each(|_| scope.detach(count()));
            drop(held);
        }),
    }
}

#[test]
fn jobs_are_spawned_over_a_lock_that_they_take() {
    let _limited = limited(30);
    for count in [1, 4] {
        for capacity in [1024, 1] {
            for kind in 0..3 {
                let pool = shared(workers(count).lane_capacity(capacity));
                let (inner, lock) = (pool.clone(), Arc::new(Mutex::new(0)));
                let ours = lock.clone();
                pool.spawn(move || spawn_over_a_lock(&inner, &ours, kind, 1_100)).join().unwrap();
                assert!(within_ten_seconds(|| *lock.lock().unwrap() == 1_100));
            }
        }
    }
}

thread_local! {
    /// The number of jobs on the stack of this thread.
    static DEPTH: Cell<usize> = const { Cell::new(0) };
}

/// Runs a step of an actor, which ends with the spawn of the next one.
fn step(pool: Arc<Pool>, left: usize, done: Sender<()>) {
    assert_eq!(DEPTH.replace(1), 0, "a job runs on top of another one");
    if left == 0 {
        done.send(()).unwrap();
    } else {
        let next = pool.clone();
        pool.detach(move || step(next, left - 1, done));
    }
    DEPTH.set(0);
}

#[test]
fn actors_never_pile_up() {
    let _limited = limited(200);
    for (count, capacity) in [(1, 1024), (4, 1024), (1, 1), (4, 1)] {
        let pool = shared(workers(count).lane_capacity(capacity));
        let (done, ends) = channel();
        let inner = pool.clone();
        pool.detach(move || {
            for _ in 0..1_025 {
                let (pool, done) = (inner.clone(), done.clone());
                inner.detach(move || step(pool, 200, done));
            }
        });
        assert_eq!(ends.iter().count(), 1_025);
    }
}

/// Opens a scope in a job that a member of a gang has spawned.
#[test]
fn members_spawn_jobs_that_open_scopes() {
    let _limited = limited(30);
    for dim in 0..=2 {
        let pool = shared(Pool::builder().workers_log2(2).lane_capacity(4));
        let inner = pool.clone();
        let gang = pool.submit(dim, move |group| {
            group.barrier();
            let open = |number: usize| {
                let pool = inner.clone();
                inner.spawn(move || {
                    let sum = AtomicUsize::new(0);
                    pool.scope(|scope| (0..4).for_each(|_| scope.detach(|| add(&sum, number))));
                    sum.into_inner()
                })
            };
            (0..50).map(open).collect::<Vec<_>>()
        });
        for tickets in gang.unwrap().join_all().unwrap() {
            for (number, ticket) in tickets.into_iter().enumerate() {
                assert_eq!(ticket.join().unwrap(), 4 * number);
            }
        }
    }
}

/// Waits for a job that waits, and so on. The last one spawns a job over a lock that it takes.
fn spawn_deep(pool: Arc<Pool>, depth: usize, lock: Arc<Mutex<usize>>) -> usize {
    let inner = pool.clone();
    if depth > 0 {
        return pool.spawn(move || spawn_deep(inner, depth - 1, lock)).join().unwrap() + 1;
    }
    let mut held = lock.lock().unwrap();
    let theirs = lock.clone();
    let ticket = pool.spawn(move || *theirs.lock().unwrap());
    *held = 7;
    drop(held);
    ticket.join().unwrap()
}

#[test]
fn a_deep_spawn_does_not_run_its_job() {
    let _limited = limited(30);
    for (count, spares, capacity) in [(1, 256, 1024), (1, 0, 1), (4, 256, 1), (2, 0, 1024)] {
        let pool = shared(workers(count).max_threads(spares).lane_capacity(capacity));
        for depth in [1, 15, 16, 17, 40] {
            let (inner, lock) = (pool.clone(), Arc::new(Mutex::new(0)));
            assert_eq!(pool.spawn(move || spawn_deep(inner, depth, lock)).join().unwrap(), depth + 7);
        }
    }
}

#[test]
fn a_full_lane_does_not_run_a_job_in_place() {
    thread_local! {
        static CELL: RefCell<usize> = const { RefCell::new(0) };
    }
    let _limited = limited(30);
    let pool = shared(workers(1).lane_capacity(1));
    for is_in_gang in [false, true] {
        let inner = pool.clone();
        let spawn = move || {
            CELL.with_borrow_mut(|cell| {
                *cell = 7;
                [(); 3].map(|()| inner.spawn(|| CELL.with_borrow_mut(|cell| *cell += 1)))
            })
        };
        let tickets = match is_in_gang {
            true => pool.submit(0, move |_| spawn()).unwrap().join(),
            false => pool.spawn(spawn).join(),
        };
        assert!(tickets.unwrap().into_iter().all(|ticket| ticket.join().is_ok()));
    }
}

/// The lane is full, and its second job has begun. The first one goes elsewhere, and is not run.
#[test]
fn a_lane_makes_room_without_a_run() {
    let _limited = limited(30);
    let pool = shared(workers(1).lane_capacity(2));
    let (inner, lock) = (pool.clone(), Arc::new(Mutex::new(0)));
    let all = pool.spawn(move || {
        let held = lock.lock().unwrap();
        let count = || {
            let lock = lock.clone();
            inner.spawn(move || *lock.lock().unwrap() += 1)
        };
        let first = count();
        inner.spawn(|| ()).join().unwrap();
        let others = [(); 3].map(|()| count());
        drop(held);
        first.join().unwrap();
        others.into_iter().for_each(|ticket| ticket.join().unwrap());
        let counted = *lock.lock().unwrap();
        counted
    });
    assert_eq!(all.join().unwrap(), 4);
}

/// Jobs that were joined take no room in the lane of the job that joins.
#[test]
fn a_job_has_room_for_one_that_it_joins() {
    let _limited = limited(30);
    for spares in [0, 256] {
        let pool = shared(workers(1).max_threads(spares).lane_capacity(4));
        let inner = pool.clone();
        let joined = pool.spawn(move || {
            let once = |number: usize| inner.try_spawn(move || number).unwrap().join().unwrap();
            (0..1_000).filter(|number| once(*number) == *number).count()
        });
        assert_eq!(joined.join().unwrap(), 1_000);
    }
}

/// Jobs for which no lane has room, beside threads that always fill the other lane.
#[test]
fn a_stream_of_jobs_keeps_the_overflow_going() {
    const JOBS: usize = 80;
    let _limited = limited(30);
    let pool = shared(workers(1).lane_capacity(16).shared_lanes(1));
    let (ran, stop) = (Arc::new(AtomicUsize::new(0)), AtomicBool::new(false));
    let streamed = AtomicUsize::new(0);
    thread::scope(|threads| {
        for _ in 0..4 {
            threads.spawn(|| {
                while !stop.load(SeqCst) {
                    pool.detach(|| thread::sleep(Duration::from_millis(2)));
                    add(&streamed, 1);
                }
            });
        }
        let is_full = within_ten_seconds(|| streamed.load(SeqCst) >= 30);
        let (inner, all) = (pool.clone(), ran.clone());
        pool.detach(move || {
            for _ in 0..JOBS {
                let ran = all.clone();
                inner.detach(move || add(&ran, 1));
            }
        });
        let have_run = is_full && within_ten_seconds(|| ran.load(SeqCst) == JOBS);
        stop.store(true, SeqCst);
        assert!(have_run, "{} of {JOBS} jobs have run", ran.load(SeqCst));
    });
}

/// How a job waits for what is blocked elsewhere.
#[derive(Clone, Copy, Debug, PartialEq, Eq)]
enum By {
    Join,
    Scope,
    Run,
    OtherPool,
}

/// What a job that waits and another job have in common.
struct Stage {
    pool: Arc<Pool>,
    other: Pool,
    /// The awaited job has begun, and may end. The other job has entered.
    begun: Gate,
    release: Gate,
    entered: Gate,
    lock: Mutex<()>,
    is_waiting: AtomicBool,
}

impl Stage {
    fn new(count: usize) -> Arc<Self> {
        Arc::new(Stage {
            pool: pool_with(count, 256),
            other: workers(1).build().unwrap(),
            begun: Gate::default(),
            release: Gate::default(),
            entered: Gate::default(),
            lock: Mutex::new(()),
            is_waiting: AtomicBool::new(false),
        })
    }

    fn block(&self) {
        self.begun.open(1);
        self.release.pass();
    }

    /// Returns the job that the waiting job must not run.
    fn other_job(self: &Arc<Self>, locks: bool) -> impl FnOnce() -> ThreadId + Send + 'static {
        let stage = self.clone();
        move || {
            stage.entered.open(1);
            if locks {
                drop(stage.lock.lock().unwrap());
            }
            thread::current().id()
        }
    }

    /// Waits in a job for what is blocked. Calls `before` once that has begun.
    fn wait(self: &Arc<Self>, by: By, before: impl FnOnce()) {
        let stage = self.clone();
        let before = || {
            before();
            self.is_waiting.store(true, SeqCst);
        };
        match by {
            By::Join | By::OtherPool => {
                let pool = if by == By::Join { &self.pool } else { &self.other };
                let ticket = pool.spawn(move || stage.block());
                self.begun.pass();
                before();
                ticket.join().unwrap();
            }
            By::Scope => self.pool.scope(|scope| {
                scope.detach(|| self.block());
                self.begun.pass();
                before();
            }),
            By::Run => {
                before();
                self.pool.run(0, |_| self.block());
            }
        }
    }
}

/// Returns the thread of a job that waits, and that of another one which runs meanwhile.
fn threads_of_both(by: By, is_child: bool, locks: bool) -> [ThreadId; 2] {
    let stage = Stage::new(if by == By::OtherPool { 1 } else { 2 });
    let ours = stage.clone();
    let (send, child) = channel();
    let waiter = stage.pool.spawn(move || {
        let held = locks.then(|| ours.lock.lock().unwrap());
        ours.wait(by, || {
            if is_child {
                send.send(ours.pool.spawn(ours.other_job(locks))).unwrap();
            }
        });
        drop(held);
        thread::current().id()
    });
    let other = if is_child {
        child.recv().unwrap()
    } else {
        assert!(within_ten_seconds(|| stage.is_waiting.load(SeqCst)));
        thread::sleep(Duration::from_millis(5));
        stage.pool.spawn(stage.other_job(locks))
    };
    stage.entered.pass();
    stage.release.open(1);
    [waiter.join().unwrap(), other.join().unwrap()]
}

/// A job waits for one that is blocked elsewhere. Meanwhile another job runs, but not on its stack.
#[test]
fn no_other_job_runs_on_top_of_a_wait() {
    let _limited = limited(30);
    for by in [By::Join, By::Scope, By::Run, By::OtherPool] {
        for is_child in [true, false] {
            // A gang may get the worker of a job that is blocked by the lock.
            for locks in if by == By::Run { vec![false] } else { vec![false, true] } {
                for _ in 0..10 {
                    let [waiter, other] = threads_of_both(by, is_child, locks);
                    assert_ne!(waiter, other, "{by:?}, {is_child}, {locks}");
                }
            }
        }
    }
}

/// A gang has called the worker of a job that waits for another job. The gang waits for that job.
#[test]
fn no_other_gang_runs_on_top_of_a_wait() {
    let _limited = limited(30);
    for spares in [0, 256] {
        let pool = pool_with(2, spares);
        for _ in 0..20 {
            let (begun, called, end, go) =
                (Gate::default(), Gate::default(), Gate::default(), Gate::default());
            let (inner, ours) = (pool.clone(), [begun.clone(), called.clone(), end.clone(), go.clone()]);
            let waiter = pool.spawn(move || {
                let [begun, called, end, go] = ours;
                let slow = inner.spawn(move || {
                    begun.open(1);
                    end.pass();
                });
                called.pass();
                slow.join().unwrap();
                go.open(2);
            });
            begun.pass();
            let gang = pool.submit(1, move |_| go.pass()).unwrap();
            called.open(1);
            thread::sleep(Duration::from_millis(2));
            end.open(1);
            waiter.join().unwrap();
            gang.join().unwrap();
        }
    }
}

#[test]
fn a_job_of_its_own_is_taken() {
    let _limited = limited(200);
    for spares in [0, 256] {
        let pool = pool_with(1, spares);
        let inner = pool.clone();
        let sum = pool.spawn(move || {
            (0..100_000_usize).map(|number| inner.spawn(move || number).join().unwrap()).sum::<usize>()
        });
        assert_eq!(sum.join().unwrap(), 99_999 * 100_000 / 2);
    }
}

/// Calls in a job that holds a lock, while each other worker is blocked by that lock. So the job
/// has to do all itself. What is queued before the call would be blocked too.
fn with_blocked_workers<T: Send + 'static>(
    pool: &Arc<Pool>,
    call: impl FnOnce(&Arc<Pool>, Receiver<Ticket<u32>>) -> T + Send + 'static,
) -> T {
    let lock = Arc::new(Mutex::new(()));
    let (held, begun, is_full) = (Gate::default(), Gate::default(), Gate::default());
    let (inner, ours, all) = (pool.clone(), lock.clone(), [held.clone(), begun.clone(), is_full.clone()]);
    let (send, tickets) = channel();
    let result = pool.spawn(move || {
        let _guard = ours.lock().unwrap();
        let [held, begun, is_full] = all;
        held.open(1);
        (1..inner.workers()).for_each(|_| begun.pass());
        is_full.pass();
        call(&inner, tickets)
    });
    held.pass();
    let blocked = || {
        let (lock, begun) = (lock.clone(), begun.clone());
        move || {
            begun.open(1);
            drop(lock.lock().unwrap());
        }
    };
    let mut blocked: Vec<_> = (1..pool.workers() + 2).map(|_| pool.spawn(blocked())).collect();
    send.send(pool.spawn(|| 7)).unwrap();
    is_full.open(1);
    let result = result.join().unwrap();
    blocked.drain(..).for_each(|ticket| ticket.join().unwrap());
    result
}

#[test]
fn an_awaited_job_is_taken_wherever_it_is() {
    let _limited = limited(30);
    for (count, spares, capacity) in [(1, 0, 16), (2, 0, 1024), (2, 256, 4), (4, 0, 1024)] {
        let pool = shared(workers(count).max_threads(spares).lane_capacity(capacity));
        for _ in 0..20 {
            // Its own child, then a job of another thread.
            let child = |pool: &Arc<Pool>, _| pool.spawn(|| 8).join().unwrap();
            assert_eq!(with_blocked_workers(&pool, child), 8);
            let foreign = |_: &Arc<Pool>, from: Receiver<Ticket<u32>>| from.recv().unwrap().join().unwrap();
            assert_eq!(with_blocked_workers(&pool, foreign), 7);
        }
    }
}

/// The only worker of another pool is blocked by a lock that the waiting job holds.
#[test]
fn an_awaited_job_of_another_pool_is_taken() {
    let _limited = limited(30);
    let (one, two) = (pool_with(1, 256), pool_with(1, 256));
    for _ in 0..20 {
        let (there, begun, lock) = (two.clone(), Gate::default(), Arc::new(Mutex::new(())));
        let waiter = one.spawn(move || {
            let held = lock.lock().unwrap();
            let (theirs, here) = (lock.clone(), begun.clone());
            let blocked = there.spawn(move || {
                here.open(1);
                drop(theirs.lock().unwrap());
            });
            begun.pass();
            let (seven, ran) = (there.spawn(|| 7).join().unwrap(), AtomicUsize::new(0));
            there.scope(|scope| (0..10).for_each(|_| scope.detach(|| add(&ran, 1))));
            drop(held);
            blocked.join().unwrap();
            seven + ran.into_inner()
        });
        assert_eq!(waiter.join().unwrap(), 17);
    }
}

#[test]
fn all_jobs_of_a_scope_are_taken() {
    let _limited = limited(30);
    for (count, spares) in [(1, 0), (2, 0), (2, 256), (4, 0)] {
        let pool = shared(workers(count).max_threads(spares).lane_capacity(4));
        let ran = with_blocked_workers(&pool, |pool, _| {
            let ran = AtomicUsize::new(0);
            let count = || add(&ran, 1);
            pool.scope(|scope| {
                for number in 0..1_100 {
                    scope.detach(move || {
                        count();
                        if number % 11 == 0 {
                            scope.detach(count);
                        }
                    });
                }
            });
            ran.into_inner()
        });
        assert_eq!(ran, 1_200);
    }
}

/// The owner of a scope sleeps. Then a job of the scope spawns others, and waits for them by other
/// means.
#[test]
fn a_scope_grows_while_its_owner_waits() {
    let _limited = limited(30);
    for spares in [0, 256] {
        let pool = shared(workers(2).max_threads(spares).lane_capacity(4));
        for _ in 0..20 {
            let inner = pool.clone();
            let ran = pool.spawn(move || {
                let (begun, ran) = (Gate::default(), Gate::default());
                inner.scope(|scope| {
                    let (started, each) = (begun.clone(), &ran);
                    scope.detach(move || {
                        started.open(1);
                        thread::sleep(Duration::from_millis(2));
                        (0..10).for_each(|_| scope.detach(|| each.open(1)));
                        (0..10).for_each(|_| each.pass());
                    });
                    begun.pass();
                });
                7
            });
            assert_eq!(ran.join().unwrap(), 7);
        }
    }
}

/// Makes the calls of a job that has no worker: all workers wait for it.
fn go_on(pool: &Pool) {
    let tickets: Vec<_> = (0..20).map(|number| pool.spawn(move || number)).collect();
    assert_eq!(tickets.into_iter().map(|it| it.join().unwrap()).sum::<usize>(), 190);
    let ran = AtomicUsize::new(0);
    pool.scope(|scope| (0..20).for_each(|_| scope.detach(|| add(&ran, 1))));
    assert_eq!(ran.into_inner(), 20);
    (0..20).for_each(|_| pool.detach(|| ()));
}

/// A wait ends while all workers are held by jobs that are blocked until the waiting job goes on.
#[test]
fn a_job_goes_on_without_a_worker() {
    let _limited = limited(30);
    for (count, capacity) in [(1, 1), (1, 1024), (2, 1), (4, 1024)] {
        let (pool, other) = (shared(workers(count).lane_capacity(capacity)), shared(workers(1)));
        for _ in 0..20 {
            let (end, begun, go) = (Gate::default(), Gate::default(), Gate::default());
            let (inner, ours, until) = (pool.clone(), go.clone(), end.clone());
            let (awaited, first) = (other.spawn(move || until.pass()), begun.clone());
            let waiter = pool.spawn(move || {
                first.open(1);
                awaited.join().unwrap();
                go_on(&inner);
                ours.open(inner.workers());
            });
            begun.pass();
            let (here, spawner) = ((begun.clone(), go.clone()), pool.clone());
            // Its lane may have no room for all.
            let blocked = thread::spawn(move || {
                let (begun, go) = here;
                let block = || {
                    let (begun, go) = (begun.clone(), go.clone());
                    move || {
                        begun.open(1);
                        go.pass();
                    }
                };
                (0..spawner.workers()).map(|_| spawner.spawn(block())).collect::<Vec<_>>()
            });
            (0..count).for_each(|_| begun.pass());
            end.open(1);
            waiter.join().unwrap();
            blocked.join().unwrap().into_iter().for_each(|ticket| ticket.join().unwrap());
        }
    }
}

/// Spawns a job that waits for one of another pool, until the gate is open. Returns its ticket when
/// it waits, most likely.
fn spawn_waiter(pool: &Pool, other: &Pool) -> (Ticket<()>, Gate) {
    let (begun, end) = (Gate::default(), Gate::default());
    let (here, until) = (begun.clone(), end.clone());
    let blocked = other.spawn(move || {
        here.open(1);
        until.pass();
    });
    begun.pass();
    let here = begun.clone();
    let waiter = pool.spawn(move || {
        here.open(1);
        blocked.join().unwrap();
    });
    begun.pass();
    thread::sleep(Duration::from_millis(20));
    (waiter, end)
}

/// The first job that waits has kept its worker. The second one has lost its own, and ends. Its
/// thread takes the worker of the first.
#[test]
fn a_thread_without_a_worker_takes_one_that_is_kept() {
    let _limited = limited(30);
    let (pool, other) = (pool_with(2, 0), pool_with(2, 256));
    for _ in 0..20 {
        let (first, end_of_first) = spawn_waiter(&pool, &other);
        let (second, end_of_second) = spawn_waiter(&pool, &other);
        end_of_second.open(1);
        second.join().unwrap();
        let both = Arc::new(Barrier::new(2));
        let tickets = [(); 2].map(|()| {
            let both = both.clone();
            pool.spawn(move || both.wait().is_leader())
        });
        assert_eq!(tickets.map(|it| usize::from(it.join().unwrap())).into_iter().sum::<usize>(), 1);
        end_of_first.open(1);
        first.join().unwrap();
    }
}

/// A job that has waited has its own lane again, which the other worker does not empty.
#[test]
fn a_job_gets_a_kept_worker_back() {
    let _limited = limited(30);
    let pool = shared(workers(2).max_threads(0).lane_capacity(4));
    let other = pool_with(1, 256);
    let (held, go, begun, end) = (Gate::default(), Gate::default(), Gate::default(), Gate::default());
    let (is_held, until) = (held.clone(), go.clone());
    pool.detach(move || {
        is_held.open(1);
        until.pass();
    });
    held.pass();
    let (here, until) = (begun.clone(), end.clone());
    let blocked = other.spawn(move || {
        here.open(1);
        until.pass();
    });
    begun.pass();
    let inner = pool.clone();
    let waiter = pool.spawn(move || {
        begun.open(1);
        blocked.join().unwrap();
        (0..100).filter(|_| inner.try_spawn(|| ()).is_ok_and(|ticket| ticket.join().is_ok())).count()
    });
    thread::sleep(Duration::from_millis(20));
    end.open(1);
    assert_eq!(waiter.join().unwrap(), 100);
    go.open(1);
}

/// Jobs that wait have kept their workers, and a gang needs all of them.
#[test]
fn a_gang_gets_workers_that_are_kept() {
    let _limited = limited(30);
    for (dim, spares) in [(0, 0), (1, 0), (2, 0), (2, 1)] {
        let pool = shared(Pool::builder().workers_log2(dim).max_threads(spares));
        let other = pool_with(1 << dim, 256);
        for _ in 0..5 {
            let waiters: Vec<_> = (0..1 << dim).map(|_| spawn_waiter(&pool, &other)).collect();
            assert_eq!(pool.run(dim, |group| group.all_reduce(1, |a, b| a + b)), vec![1 << dim; 1 << dim]);
            for (waiter, end) in waiters {
                end.open(1);
                waiter.join().unwrap();
            }
        }
    }
}

/// Spawns a job and joins it, on a stack of which more than half is used.
fn join_deep<const BYTES: usize>(pool: &Pool) -> u8 {
    let mut bytes = [0_u8; BYTES];
    black_box(&mut bytes)[BYTES / 2] = 3;
    pool.spawn(|| 4).join().unwrap() + black_box(&bytes)[BYTES / 2]
}

/// Two jobs wait, and could use up the spares. Another one holds a lock by which each worker may be
/// blocked, and waits with more than half of its stack used.
#[test]
fn a_deep_wait_has_a_spare() {
    let _limited = limited(30);
    for _ in 0..5 {
        let pool = shared(workers(2).max_threads(2).stack_size(1 << 20));
        let other = pool_with(2, 256);
        let waiters = [(); 2].map(|()| spawn_waiter(&pool, &other));
        let (inner, lock, held) = (pool.clone(), Arc::new(Mutex::new(())), Gate::default());
        let (ours, is_held) = (lock.clone(), held.clone());
        let deep = pool.spawn(move || {
            let _guard = ours.lock().unwrap();
            is_held.open(1);
            thread::sleep(Duration::from_millis(20));
            join_deep::<{ 600 << 10 }>(&inner)
        });
        held.pass();
        let blocked = pool.spawn(move || drop(lock.lock().unwrap()));
        assert_eq!(deep.join().unwrap(), 7);
        blocked.join().unwrap();
        for (waiter, end) in waiters {
            end.open(1);
            waiter.join().unwrap();
        }
    }
}

/// Returns the most threads of pools that were seen until the job has ended.
fn most_threads(ticket: Ticket<usize>, result: usize) -> usize {
    let mut most = 0;
    while !ticket.is_finished() {
        most = most.max(threads());
        thread::sleep(Duration::from_micros(500));
    }
    assert_eq!(ticket.join().unwrap(), result);
    most
}

/// Returns the number of leaves of a tree of scopes.
fn leaves(pool: &Pool, width: usize, depth: usize) -> usize {
    if depth == 0 {
        black_box((0..2_000).map(black_box).sum::<usize>());
        return 1;
    }
    let mut counts = vec![0; width];
    pool.scope(|scope| {
        for count in &mut counts {
            scope.detach(move || *count = leaves(pool, width, depth - 1));
        }
    });
    counts.into_iter().sum()
}

#[test]
fn a_tree_of_scopes_needs_few_threads() {
    let _limited = limited(200);
    for (width, depth) in [(2, 12), (8, 4), (64, 2)] {
        let pool = pool_with(4, 256);
        for _ in 0..5 {
            let inner = pool.clone();
            let most = most_threads(pool.spawn(move || leaves(&inner, width, depth)), 4_096);
            assert!(most <= 64, "{most} threads for a tree of width {width}");
        }
    }
}

/// Waits for a job that has begun elsewhere, again and again.
fn give_away(pool: &Pool, rounds: usize) -> usize {
    for _ in 0..rounds {
        let has_begun = Arc::new(AtomicBool::new(false));
        let begun = has_begun.clone();
        let ticket = pool.spawn(move || {
            begun.store(true, SeqCst);
            thread::yield_now();
        });
        while !has_begun.load(SeqCst) {
            thread::yield_now();
        }
        ticket.join().unwrap();
    }
    rounds
}

#[test]
fn waits_that_give_their_worker_away_leave_few_threads() {
    let _limited = limited(200);
    let pool = pool_with(4, 256);
    let all = [(); 2].map(|()| {
        let inner = pool.clone();
        pool.spawn(move || give_away(&inner, 50_000))
    });
    for ticket in all {
        let most = most_threads(ticket, 50_000);
        assert!(most <= 40, "{most} threads");
    }
    assert!(threads() <= 40, "{} threads are left", threads());
}

/// Waits for a job that does the same, with this number of bytes on the stack of each.
fn nest<const BYTES: usize>(pool: Arc<Pool>, depth: usize) -> usize {
    let mut bytes = [0_u8; BYTES];
    bytes[depth % BYTES] = 1;
    black_box(&mut bytes);
    let inner = pool.clone();
    let below = match depth {
        0 => 0,
        _ => pool.spawn(move || nest::<BYTES>(inner, depth - 1)).join().unwrap(),
    };
    below + usize::from(black_box(&bytes)[depth % BYTES])
}

#[test]
fn nested_joins_do_not_overflow_a_stack() {
    type Nest = fn(Arc<Pool>, usize) -> usize;
    let _limited = limited(200);
    let cases: [(Nest, usize, usize); 4] = [
        (nest::<16>, 5_000, 2 << 20),
        (nest::<{ 32 << 10 }>, 130, 2 << 20),
        (nest::<16>, 1_000, 256 << 10),
        (nest::<{ 32 << 10 }>, 130, 512 << 10),
    ];
    for (call, depth, bytes) in cases {
        for (count, spares) in [(1, 256), (1, 0), (4, 256), (4, 0)] {
            let pool = shared(workers(count).max_threads(spares).stack_size(bytes));
            let inner = pool.clone();
            assert_eq!(pool.spawn(move || call(inner, depth)).join().unwrap(), depth + 1);
        }
    }
    let (pool, depth) = (pool_with(1, 256), 1_000);
    let inner = pool.clone();
    assert_eq!(pool.spawn(move || nest_scopes(&inner, depth)).join().unwrap(), depth);
}

/// Opens a scope in a job of a scope, and so on.
fn nest_scopes(pool: &Pool, depth: usize) -> usize {
    let mut below = 0;
    if depth > 0 {
        pool.scope(|scope| scope.detach(|| below = nest_scopes(pool, depth - 1) + 1));
    }
    below
}

#[test]
fn jobs_of_two_pools_wait_for_each_other() {
    let _limited = limited(30);
    let (one, two) = (pool_with(1, 256), pool_with(1, 256));
    for depth in [1, 2, 30] {
        let (here, there) = (one.clone(), two.clone());
        assert_eq!(one.spawn(move || to_and_fro(here, there, depth)).join().unwrap(), depth);
    }
}

/// Waits for a job of the other pool, which waits for one of this pool, and so on.
fn to_and_fro(here: Arc<Pool>, there: Arc<Pool>, depth: usize) -> usize {
    if depth == 0 {
        return 0;
    }
    let (ours, theirs) = (here, there.clone());
    there.spawn(move || to_and_fro(theirs, ours, depth - 1)).join().unwrap() + 1
}

#[test]
fn a_member_waits_for_another_pool() {
    let _limited = limited(30);
    for dim in 0..=2 {
        let one = shared(Pool::builder().workers_log2(dim));
        let two = pool_with(1, 256);
        let (here, there) = (one.clone(), two.clone());
        let gang = one.submit(dim, move |group: &Group<'_>| {
            let (here, rank) = (here.clone(), group.rank());
            let back = there.spawn(move || here.spawn(move || rank).join().unwrap());
            let sum = group.all_reduce(back.join().unwrap(), |a, b| a + b);
            let sums = AtomicUsize::new(0);
            there.scope(|scope| (0..2).for_each(|_| scope.detach(|| add(&sums, sum))));
            sums.into_inner()
        });
        let size = 1 << dim;
        assert_eq!(gang.unwrap().join_all().unwrap(), vec![size * (size - 1); size]);
    }
}

/// A job closes another pool, whose last job waits for a job of the first pool.
#[test]
fn a_job_waits_for_the_end_of_another_pool() {
    let _limited = limited(30);
    for count in [1, 2] {
        for is_closed in [false, true] {
            let one = pool_with(count, 256);
            let tickets: Vec<_> = (0..count)
                .map(|_| {
                    let (outer, inner) = (one.clone(), one.clone());
                    outer.spawn(move || {
                        let two = workers(1).build().unwrap();
                        let last = two.spawn(move || {
                            thread::sleep(Duration::from_millis(5));
                            let (say, hear) = channel();
                            inner.detach(move || say.send(7).unwrap());
                            hear.recv().unwrap()
                        });
                        if is_closed {
                            two.close();
                        } else {
                            drop(two);
                        }
                        last.is_finished() && last.join().unwrap() == 7
                    })
                })
                .collect();
            assert!(tickets.into_iter().all(|ticket| ticket.join().unwrap()));
        }
    }
}

/// Runs gangs of each size in jobs, of which more than all workers do so at once.
#[test]
fn jobs_run_gangs_while_their_lane_is_full() {
    let _limited = limited(200);
    for (dim, spares) in [(0, 256), (1, 256), (2, 256), (1, 0), (2, 0)] {
        let builder = Pool::builder().workers_log2(dim).lane_capacity(1).shared_lanes(1);
        let pool = shared(builder.max_threads(spares));
        let tickets: Vec<_> = (0..8)
            .map(|number: u32| {
                let inner = pool.clone();
                pool.spawn(move || {
                    for round in 0..50 {
                        let dim = (number + round) % (dim + 1);
                        let sums = inner.run(dim, |group| group.all_reduce(1, |a, b| a + b));
                        assert_eq!(sums, vec![1 << dim; 1 << dim]);
                    }
                })
            })
            .collect();
        tickets.into_iter().for_each(|ticket| ticket.join().unwrap());
    }
}

/// As many jobs as workers each run a gang of the whole pool, at the same time.
#[test]
fn each_worker_runs_a_gang_of_the_whole_pool() {
    let _limited = limited(200);
    for (dim, spares) in [(1, 0), (2, 0), (1, 256), (2, 256), (1, 1)] {
        let pool = shared(Pool::builder().workers_log2(dim).max_threads(spares));
        for _ in 0..500 {
            let both = Arc::new(Barrier::new(1 << dim));
            let tickets: Vec<_> = (0..1 << dim)
                .map(|_| {
                    let (inner, both) = (pool.clone(), both.clone());
                    pool.spawn(move || {
                        both.wait();
                        inner.run(dim, |group| group.all_reduce(group.rank(), |a, b| a + b))
                    })
                })
                .collect();
            let size = 1 << dim;
            for ticket in tickets {
                assert_eq!(ticket.join().unwrap(), vec![size * (size - 1) / 2; size]);
            }
        }
    }
}

/// Each worker has a job that waits for one of another pool, which is blocked until a gang of the
/// whole pool has ended.
#[test]
fn a_job_that_waits_holds_no_worker_for_a_gang() {
    let _limited = limited(30);
    for dim in 0..=2 {
        let (one, two) = (shared(Pool::builder().workers_log2(dim)), pool_with(4, 256));
        for _ in 0..20 {
            let (waits, end) = (Gate::default(), Gate::default());
            let tickets: Vec<_> = (0..1 << dim)
                .map(|_| {
                    let (there, waits, end) = (two.clone(), waits.clone(), end.clone());
                    one.spawn(move || {
                        waits.open(1);
                        there.spawn(move || end.pass()).join().unwrap();
                    })
                })
                .collect();
            (0..1 << dim).for_each(|_| waits.pass());
            assert_eq!(one.run(dim, |group| group.all_reduce(1, |a, b| a + b)), vec![1 << dim; 1 << dim]);
            end.open(1 << dim);
            tickets.into_iter().for_each(|ticket| ticket.join().unwrap());
        }
    }
}

/// A job waits for one that waits for a gang of the whole pool.
#[test]
fn a_ticket_may_depend_on_a_gang() {
    let _limited = limited(30);
    for (dim, spares) in [(0, 256), (1, 256), (2, 256), (0, 0), (1, 0), (2, 0)] {
        let pool = shared(Pool::builder().workers_log2(dim).max_threads(spares));
        for _ in 0..100 {
            let (outer, inner) = (pool.clone(), pool.clone());
            let ticket = pool.spawn(move || {
                let runs = outer.spawn(move || inner.run(dim, |group| group.all_reduce(1, |a, b| a + b)));
                runs.join().unwrap()
            });
            assert_eq!(ticket.join().unwrap(), vec![1 << dim; 1 << dim]);
        }
    }
}

/// Joins in a job its own ticket. Returns the text of the panic.
fn self_join(pool: &Pool, joins_all: bool) -> String {
    let (send, own) = channel::<Ticket<()>>();
    let (say, hear) = channel();
    let ticket = pool.spawn(move || {
        let ticket = own.recv().unwrap();
        let join = || if joins_all { ticket.join_all().map(drop) } else { ticket.join() };
        say.send(text(catch_unwind(AssertUnwindSafe(join)).unwrap_err())).unwrap();
    });
    send.send(ticket).unwrap();
    hear.recv().unwrap()
}

#[test]
fn a_job_that_waits_for_itself_panics() {
    let _limited = limited(30);
    expect_panics(&["a job waits for its own end"]);
    for count in [1, 4] {
        for spares in [0, 256] {
            let pool = pool_with(count, spares);
            for joins_all in [false, true] {
                let said = self_join(&pool, joins_all);
                assert!(said.starts_with("a job waits for its own end"), "{said}");
            }
            assert_eq!(pool.spawn(|| 7).join().unwrap(), 7);
            assert_eq!(pool.run(pool.dim(), |group| group.size()), vec![count; count]);
        }
    }
}

/// A job of a scope waits for itself. It may be on the stack of the scope's owner.
#[test]
fn a_job_of_a_scope_that_waits_for_itself_panics() {
    let _limited = limited(30);
    expect_panics(&["a job waits for its own end"]);
    for (count, spares) in [(1, 0), (1, 256), (4, 256)] {
        let pool = pool_with(count, spares);
        let inner = pool.clone();
        let outer = pool.spawn(move || {
            let (say, hear) = channel();
            inner.scope(|scope| {
                let (send, own) = channel::<ScopeTicket<'_, ()>>();
                let ticket = scope.spawn(move || {
                    let ticket = own.recv().unwrap();
                    say.send(text(catch_unwind(AssertUnwindSafe(|| ticket.join())).unwrap_err())).unwrap();
                });
                send.send(ticket).unwrap();
            });
            hear.recv().unwrap()
        });
        let said = outer.join().unwrap();
        assert!(said.starts_with("a job waits for its own end"), "{said}");
        assert_eq!(pool.spawn(|| 7).join().unwrap(), 7);
    }
}

/// The variable by which a test runs again, in a process of its own.
const ALONE: &str = "POOL_TEST_ALONE";

/// Runs a test again in a process of its own, unless this is that process. Returns whether it did.
fn is_run_alone(test: &str) -> bool {
    if env::var_os(ALONE).is_some() {
        return false;
    }
    let mut again = Command::new(env::current_exe().unwrap());
    let output = again.args(["--exact", test, "--nocapture"]).env(ALONE, "yes").output().unwrap();
    let said = |bytes: &[u8]| String::from_utf8_lossy(bytes).into_owned();
    let (out, err) = (said(&output.stdout), said(&output.stderr));
    assert!(output.status.success() && out.contains("1 passed"), "{}: {out}{err}", output.status);
    true
}

/// A value that uses a pool when its thread ends.
struct Late(Arc<Pool>, Sender<u32>);

impl Drop for Late {
    fn drop(&mut self) {
        let Late(pool, sender) = self;
        let detached = sender.clone();
        pool.detach(move || detached.send(1).unwrap());
        sender.send(pool.spawn(|| 2).join().unwrap()).unwrap();
        pool.scope(|scope| scope.detach(|| sender.send(3).unwrap()));
        sender.send(pool.run(0, |_| 4)[0]).unwrap();
        if let Ok(mut client) = pool.client() {
            sender.send(client.spawn(|| 5).unwrap().join().unwrap()).unwrap();
        }
    }
}

thread_local! {
    static LATE: RefCell<Option<Late>> = const { RefCell::new(None) };
}

/// Values that are dropped before and after those that the pool keeps for the thread.
#[test]
fn a_thread_that_ends_may_use_a_pool() {
    if is_run_alone("a_thread_that_ends_may_use_a_pool") {
        return;
    }
    let _limited = limited(30);
    let pool = pool_with(2, 256);
    for (is_used_before, is_used_after) in [(false, false), (true, false), (false, true)] {
        let (sender, receiver) = channel();
        let inner = pool.clone();
        let ends = thread::spawn(move || {
            let use_it = || inner.spawn(|| ()).join().unwrap();
            is_used_before.then(use_it);
            LATE.set(Some(Late(inner.clone(), sender)));
            is_used_after.then(use_it);
        });
        ends.join().unwrap();
        let mut numbers: Vec<_> = receiver.iter().collect();
        numbers.sort_unstable();
        assert_eq!(numbers, [1, 2, 3, 4, 5]);
    }
    // The thread of a worker of another pool.
    let (sender, receiver) = channel();
    let other = workers(1).build().unwrap();
    other.detach(move || LATE.set(Some(Late(pool, sender))));
    other.close();
    assert_eq!(receiver.iter().sum::<u32>(), 15);
}

/// Spawns until `stop` is set, and counts what was accepted. Each job takes a permit.
fn spawn_by(kind: usize, pool: &Pool, permits: &Gate, accepted: &AtomicUsize, stop: &AtomicBool) {
    let mut client = pool.client().unwrap();
    while !stop.load(SeqCst) {
        let permits = permits.clone();
        match kind {
            0 => pool.detach(move || permits.pass()),
            1 => client.detach(move || permits.pass()).unwrap(),
            2 => drop(pool.submit(0, move |_| permits.pass())),
            _ => drop(client.submit(0, move |_| permits.pass())),
        }
        accepted.fetch_add(1, SeqCst);
    }
}

/// Waits until a count has stayed the same for a while, and returns it.
fn stable(count: &AtomicUsize) -> usize {
    loop {
        let before = count.load(SeqCst);
        thread::sleep(Duration::from_millis(30));
        if count.load(SeqCst) == before {
            return before;
        }
    }
}

/// The lane of a thread is full. Whenever one job or two gangs end, it goes on, and the others are
/// still queued.
#[test]
fn a_thread_goes_on_when_there_is_room_for_one() {
    let _limited = limited(30);
    for kind in 0..4 {
        let pool = workers(1).lane_capacity(8).shared_lanes(1).build().unwrap();
        let (permits, accepted, stop) = (Gate::default(), AtomicUsize::new(0), AtomicBool::new(false));
        thread::scope(|threads| {
            threads.spawn(|| spawn_by(kind, &pool, &permits, &accepted, &stop));
            assert!(within_ten_seconds(|| accepted.load(SeqCst) >= 8));
            for _ in 0..20 {
                let before = stable(&accepted);
                // The next gang that begins may have left the lane before.
                permits.open(if kind < 2 { 1 } else { 2 });
                let goes_on = within_ten_seconds(|| accepted.load(SeqCst) > before);
                stop.fetch_or(!goes_on, SeqCst);
                if !goes_on {
                    permits.open(1_000);
                }
                assert!(goes_on, "kind {kind}: the thread sleeps although there is room");
            }
            stop.store(true, SeqCst);
            permits.open(1_000);
        });
    }
}

/// Submits itself again until `stop` is set.
fn again(pool: Arc<Pool>, stop: Arc<AtomicBool>) {
    if !stop.load(SeqCst) {
        let next = pool.clone();
        pool.detach(move || again(next, stop));
    }
}

#[test]
fn a_job_that_comes_again_keeps_no_other_out() {
    let _limited = limited(30);
    for (count, capacity, jobs) in [(1, 1024, 1), (1, 1, 8), (2, 1, 8), (1, 4, 100)] {
        let pool = shared(workers(count).lane_capacity(capacity));
        let mut client = pool.client().unwrap();
        let stop = Arc::new(AtomicBool::new(false));
        let (inner, ours) = (pool.clone(), stop.clone());
        pool.detach(move || (0..jobs).for_each(|_| again(inner.clone(), ours.clone())));
        thread::sleep(Duration::from_millis(10));
        let times: Vec<_> = (0..20)
            .flat_map(|_| {
                let start = Instant::now();
                pool.spawn(|| ()).join().unwrap();
                let by_pool = Instant::now();
                client.spawn(|| ()).unwrap().join().unwrap();
                let by_client = Instant::now();
                pool.run(0, |_| ());
                [by_pool.duration_since(start), by_client.duration_since(by_pool), by_client.elapsed()]
            })
            .collect();
        stop.store(true, SeqCst);
        assert!(times.iter().all(|it| *it < Duration::from_secs(1)), "{count}, {jobs}: {times:?}");
    }
}

/// Fills three quarters of a stack of 16 MiB.
#[inline(never)]
#[allow(clippy::large_stack_arrays)]
fn fill_stack() -> u8 {
    let mut bytes = [1_u8; 12 << 20];
    black_box(&mut bytes)[5 << 20]
}

#[test]
fn a_stack_has_its_size() {
    let _limited = limited(30);
    let (pool, other) = (shared(workers(1).stack_size(16 << 20)), pool_with(1, 256));
    let inner = pool.clone();
    let both = pool.spawn(move || {
        let again = inner.clone();
        let by_spare = other.spawn(move || again.spawn(fill_stack).join().unwrap()).join().unwrap();
        (fill_stack(), by_spare)
    });
    assert_eq!(both.join().unwrap(), (1, 1));
    assert_eq!(pool.run(0, |_| fill_stack()), [1]);
}

fn name_here() -> String {
    thread::current().name().unwrap().to_string()
}

/// Returns the name of a spare thread of the pool, whose workers have no other job.
fn name_of_spare(pool: &Arc<Pool>) -> String {
    let (go, all) = (Gate::default(), Arc::new(Barrier::new(pool.workers())));
    let other = workers(1).build().unwrap();
    let waiters: Vec<_> = (0..pool.workers())
        .map(|_| {
            let (go, all) = (go.clone(), all.clone());
            let blocked = other.spawn(move || go.pass());
            pool.spawn(move || {
                all.wait();
                blocked.join().unwrap();
            })
        })
        .collect();
    // The waiters have the threads of all workers.
    let name = pool.spawn(name_here).join().unwrap();
    go.open(pool.workers());
    waiters.into_iter().for_each(|ticket| ticket.join().unwrap());
    name
}

#[test]
fn threads_have_their_names() {
    let _limited = limited(30);
    for count in [1, 4] {
        let builders: [(Builder, &str); 2] =
            [(workers(count), "gang-"), (workers(count).thread_name(|it| format!("mine-{it}")), "mine-")];
        for (builder, prefix) in builders {
            let pool = shared(builder);
            let names = pool.run(count.ilog2(), |_| name_here());
            assert_eq!(names, (0..count).map(|it| format!("{prefix}{it}")).collect::<Vec<_>>());
            let spare = name_of_spare(&pool);
            let number: usize = spare.strip_prefix(prefix).unwrap().parse().unwrap();
            assert!(number >= count, "{spare} is no spare");
        }
    }
}

#[test]
fn the_handler_runs_once_in_each_thread() {
    thread_local! {
        static NUMBERS: RefCell<Vec<usize>> = const { RefCell::new(Vec::new()) };
    }
    let _limited = limited(30);
    let all = Arc::new(Mutex::new(Vec::new()));
    let ours = all.clone();
    let handler = move |number| {
        NUMBERS.with_borrow_mut(|numbers| numbers.push(number));
        ours.lock().unwrap().push(number);
    };
    let pool = shared(workers(4).start_handler(handler));
    assert_eq!(pool.run(2, |_| NUMBERS.take()), [[0], [1], [2], [3]]);
    let number: usize = name_of_spare(&pool).strip_prefix("gang-").unwrap().parse().unwrap();
    let started = all.lock().unwrap().clone();
    let without_copies: HashSet<_> = started.iter().copied().collect();
    assert_eq!(started.len(), without_copies.len(), "{started:?}");
    assert!(number >= 4 && without_copies.contains(&number), "{number} of {started:?}");
}

#[test]
fn a_pool_has_a_worker_for_each_processor() {
    let _limited = limited(30);
    let processors = thread::available_parallelism().unwrap().get();
    assert_eq!(Pool::builder().build().unwrap().workers(), (1 << processors.ilog2()).min(1_024));
}

/// Makes a chain of tickets, of which the first is blocked. Returns its gate, and the last ticket.
fn blocked_chain(pool: &Pool, length: usize) -> (Gate, Ticket<usize>) {
    let (begun, go) = (Gate::default(), Gate::default());
    let (here, until) = (begun.clone(), go.clone());
    let first = pool.spawn(move || {
        here.open(1);
        until.pass();
        1
    });
    begun.pass();
    let last = (1..length).fold(first, |before, _| {
        pool.spawn(move || match before.join() {
            Ok(number) => number + 1,
            Err(payload) => std::panic::resume_unwind(payload),
        })
    });
    (go, last)
}

#[test]
fn a_close_runs_jobs_that_wait() {
    let _limited = limited(30);
    for (count, spares) in [(1, 256), (2, 256), (2, 0), (4, 256), (4, 0)] {
        for round in 0..20 {
            let pool = workers(count).max_threads(spares).build().unwrap();
            let (go, last) = blocked_chain(&pool, 60);
            thread::sleep(Duration::from_micros(200 * round));
            let closer = thread::spawn(|| pool.close());
            thread::sleep(Duration::from_millis(1));
            go.open(1);
            closer.join().unwrap();
            assert!(last.is_finished());
            assert_eq!(last.join().unwrap(), 60);
        }
    }
}

/// Closes a pool at once, and opens the gate when it is closed.
fn close_now_and_open(pool: Pool, go: &Gate) {
    let mut client = pool.client().unwrap();
    let closer = thread::spawn(|| pool.close_now());
    while client.try_spawn(|| ()).err().is_none_or(|refused| refused.reason != Reason::Closed) {
        thread::yield_now();
    }
    go.open(1);
    closer.join().unwrap();
}

#[test]
fn close_now_ends_jobs_that_wait() {
    let _limited = limited(30);
    for (count, spares) in [(1, 256), (1, 0), (2, 256), (2, 0), (4, 256)] {
        for round in 0..20 {
            let pool = workers(count).max_threads(spares).build().unwrap();
            let (go, last) = blocked_chain(&pool, 60);
            thread::sleep(Duration::from_micros(50 * round));
            close_now_and_open(pool, &go);
            match last.join() {
                Ok(number) => assert!(number == 60 && count > 1, "a job ran that had not begun"),
                Err(payload) => assert!(payload.is::<Cancelled>()),
            }
        }
    }
}

/// A job has begun when its pool is closed at once. Then it joins one that has not.
#[test]
fn a_job_joins_a_ticket_that_is_cancelled() {
    let _limited = limited(30);
    for spares in [0, 256] {
        let pool = workers(1).max_threads(spares).build().unwrap();
        let (begun, go) = (Gate::default(), Gate::default());
        let (here, until) = (begun.clone(), go.clone());
        let (send, tickets) = channel::<Ticket<()>>();
        let waiter = pool.spawn(move || {
            here.open(1);
            until.pass();
            tickets.iter().map(|it| it.join().unwrap_err().is::<Cancelled>()).collect::<Vec<_>>()
        });
        begun.pass();
        let ran = Arc::new(AtomicUsize::new(0));
        for _ in 0..10 {
            let ran = ran.clone();
            send.send(pool.spawn(move || add(&ran, 1))).unwrap();
        }
        drop(send);
        close_now_and_open(pool, &go);
        assert_eq!(waiter.join().unwrap(), [true; 10]);
        assert_eq!(ran.load(SeqCst), 0);
    }
}

/// Jobs for which no lane had room, in a pool that is closed.
#[test]
fn a_close_runs_jobs_of_the_overflow() {
    let _limited = limited(30);
    for count in [1, 4] {
        let pool = shared(workers(count).lane_capacity(1));
        let (ran, go, inner) = (Arc::new(AtomicUsize::new(0)), Gate::default(), pool.clone());
        let (all, until) = (ran.clone(), go.clone());
        let spawner = pool.spawn(move || {
            for _ in 0..100 {
                let (ran, go) = (all.clone(), until.clone());
                inner.detach(move || {
                    go.pass();
                    add(&ran, 1);
                });
            }
        });
        spawner.join().unwrap();
        assert!(within_ten_seconds(|| Arc::strong_count(&pool) == 1));
        let pool = Arc::into_inner(pool).unwrap();
        let closer = thread::spawn(|| pool.close());
        thread::sleep(Duration::from_millis(5));
        go.open(100);
        closer.join().unwrap();
        assert_eq!(ran.load(SeqCst), 100);
    }
}

/// A thread of another pool runs the last job of a pool that is closed.
#[test]
fn a_close_waits_for_a_guest() {
    let _limited = limited(30);
    let one = pool_with(1, 256);
    for _ in 0..20 {
        let two = workers(1).build().unwrap();
        let (go, begun, end, ended) =
            (hold(&two), Gate::default(), Gate::default(), Arc::new(AtomicBool::new(false)));
        let (here, until, has_ended) = (begun.clone(), end.clone(), ended.clone());
        let last = two.spawn(move || {
            here.open(1);
            until.pass();
            has_ended.store(true, SeqCst);
        });
        let guest = one.spawn(move || last.join().unwrap());
        begun.pass();
        go.open(1);
        let closer = thread::spawn(move || {
            two.close();
            ended.load(SeqCst)
        });
        thread::sleep(Duration::from_millis(5));
        end.open(1);
        assert!(closer.join().unwrap());
        guest.join().unwrap();
    }
}

/// The last owner of a pool is its job, which a thread of another pool runs.
#[test]
fn a_guest_may_drop_the_pool() {
    let _limited = limited(30);
    let one = pool_with(1, 256);
    for _ in 0..20 {
        let two = pool_with(1, 256);
        let (go, begun, alone) = (hold(&two), Gate::default(), Gate::default());
        let (here, until, theirs) = (begun.clone(), alone.clone(), two.clone());
        let last = two.spawn(move || {
            here.open(1);
            until.pass();
            drop(theirs);
            go.open(1);
        });
        let guest = one.spawn(move || last.join().unwrap());
        begun.pass();
        drop(two);
        alone.open(1);
        guest.join().unwrap();
    }
}

#[test]
fn a_client_that_is_dropped_leaves_its_lanes() {
    let _limited = limited(30);
    let pool = workers(2).client_lanes(1).build().unwrap();
    for number in 0..10 {
        let mut client = pool.client().unwrap();
        assert!(pool.client().is_err());
        assert_eq!(client.spawn(move || number).unwrap().join().unwrap(), number);
        assert_eq!(client.submit(1, |group| group.rank()).unwrap().join_all().unwrap(), [0, 1]);
    }
}

/// A worker of any pool never sleeps for room, also not in a pool that is not its own.
#[test]
fn a_worker_never_waits_for_room() {
    let _limited = limited(30);
    let (one, two) = (pool_with(1, 256), shared(workers(1).lane_capacity(1).shared_lanes(1)));
    let mut client = two.client().unwrap();
    let go = hold(&two);
    let there = two.clone();
    let reasons = one.spawn(move || {
        let tickets: Vec<_> = (0..100).map(|number| there.spawn(move || number)).collect();
        (0..100).for_each(|_| there.detach(|| ()));
        let is_full = |reason: Option<Reason>| reason == Some(Reason::Full);
        let full = vec![
            is_full((0..10).find_map(|_| there.try_spawn(|| ()).err()).map(|it| it.reason)),
            is_full((0..10).find_map(|_| client.spawn(|| ()).err()).map(|it| it.reason)),
            is_full((0..10).find_map(|_| client.detach(|| ()).err()).map(|it| it.reason)),
            is_full((0..10).find_map(|_| there.submit(0, |_| ()).err()).map(|it| it.reason)),
            is_full((0..10).find_map(|_| client.submit(0, |_| ()).err()).map(|it| it.reason)),
        ];
        there.scope(|scope| {
            (0..10).for_each(|_| scope.detach(|| ()));
            go.open(1);
        });
        (full, tickets.into_iter().map(|it| it.join().unwrap()).sum::<u32>())
    });
    assert_eq!(reasons.join().unwrap(), (vec![true; 5], 4_950));
}
