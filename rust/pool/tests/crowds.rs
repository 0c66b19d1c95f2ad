//! Many jobs and many threads. Each test has a limit of time, since most faults here would make the
//! pool wait for ever.

mod common;

use common::{limited, planned, pool, wait_for_threads, Counted, Numbers, Planned};
use cubejobs_pool::{Group, Pool, Reason, Ticket};
use std::cell::Cell;
use std::collections::VecDeque;
use std::hint;
use std::panic::{catch_unwind, AssertUnwindSafe};
use std::sync::atomic::{AtomicUsize, Ordering::SeqCst};
use std::sync::mpsc::channel;
use std::sync::{Arc, Barrier, Mutex};
use std::thread;
use std::time::Duration;

/// Calls of all members, with what each returns.
fn check_collectives(group: &Group<'_>, round: usize) {
    let (rank, size) = (group.rank(), group.size());
    let all: Vec<usize> = (0..size).collect();
    let root = round % size;
    assert_eq!(group.base() % size, 0);
    assert_eq!(group.all_reduce(rank + round, |a, b| a + b), size * round + size * (size - 1) / 2);
    assert_eq!(
        group.scan(rank.to_string(), |a, b| a + &b),
        all[..=rank].iter().map(usize::to_string).collect::<String>()
    );
    assert_eq!(group.exscan(vec![rank], joined), (rank > 0).then(|| all[..rank].to_vec()));
    assert_eq!(group.broadcast(root, (rank == root).then(|| format!("{round}"))), format!("{round}"));
    assert_eq!(group.all_gather(rank), all);
    assert_eq!(group.gather(root, rank), (rank == root).then(|| all.clone()));
    assert_eq!(group.scatter(root, (rank == root).then(|| all.clone())), rank);
    assert_eq!(group.reduce(vec![rank], joined), (rank == 0).then(|| all.clone()));
    let letters = all.iter().map(|to| (rank, *to, round)).collect();
    let to_me: Vec<_> = all.iter().map(|from| (*from, rank, round)).collect();
    assert_eq!(group.all_to_all(letters), to_me);
    group.barrier();
}

fn joined(mut lower: Vec<usize>, upper: Vec<usize>) -> Vec<usize> {
    lower.extend(upper);
    lower
}

/// Calls of two members that are no neighbours, with values of no bytes, and calls of a half.
fn check_pairs(group: &Group<'_>) {
    #[derive(Debug, PartialEq)]
    struct Nothing;
    let partner = group.size() - 1 - group.rank();
    assert_eq!(group.exchange(partner, ()), ());
    assert_eq!(group.exchange(partner, Nothing), Nothing);
    assert_eq!(group.exchange(partner, group.rank() as u8), partner as u8);
    let half = group.half();
    assert_eq!(half.all_reduce(1, |a, b| a + b), group.size() / 2);
    half.barrier();
}

#[test]
fn collectives_of_each_size() {
    let _limited = limited(200);
    for dim in 0..=6 {
        let pool = pool(dim);
        for width in 0..=dim {
            for round in 0..10 {
                let ranks = pool.run(width, |group| {
                    check_collectives(group, round);
                    if group.size() > 1 {
                        check_pairs(group);
                    }
                    group.rank()
                });
                assert_eq!(ranks, (0..1 << width).collect::<Vec<_>>());
            }
        }
        pool.close();
        wait_for_threads(0);
    }
}

/// A pool of the most workers.
#[test]
fn a_thousand_workers() {
    let _limited = limited(200);
    let pool = Pool::builder().workers_log2(10).lane_capacity(16).build().unwrap();
    assert_eq!(pool.workers(), 1024);
    wait_for_threads(1024);
    for width in [10, 9, 5, 0] {
        let sums = pool.run(width, |group| group.all_reduce(group.rank(), |a, b| a + b));
        assert_eq!(sums, vec![(0..1 << width).sum::<usize>(); 1 << width]);
    }
    let ran = AtomicUsize::new(0);
    pool.scope(|scope| {
        for _ in 0..10_000 {
            scope.detach(|| {
                ran.fetch_add(1, SeqCst);
            });
        }
    });
    assert_eq!(ran.load(SeqCst), 10_000);
    pool.close();
    wait_for_threads(0);
}

/// Submits random jobs. `inside` has the number of gangs at each worker, which is at most one.
fn submit_random(pool: &Pool, seed: u64, inside: &Arc<Vec<AtomicUsize>>) {
    let mut numbers = Numbers::new(seed);
    let mut client = pool.client().unwrap();
    let mut tickets: VecDeque<(Ticket<u64>, usize, u64)> = VecDeque::new();
    for number in 0..3_000 {
        let dim = numbers.below(4) as u32;
        let inside = inside.clone();
        let job = move || number;
        let gang = move |group: &Group<'_>| {
            let place = &inside[group.base() + group.rank()];
            assert_eq!(place.fetch_add(1, SeqCst), 0, "two gangs at one worker");
            assert_eq!(group.all_reduce(1, |a, b| a + b), group.size());
            place.fetch_sub(1, SeqCst);
            number
        };
        let (ticket, size) = match numbers.below(4) {
            0 => (pool.spawn(job), 1),
            1 => (client.spawn(job).unwrap(), 1),
            2 => (pool.submit(dim, gang).unwrap(), 1 << dim),
            _ => (client.submit(dim, gang).unwrap(), 1 << dim),
        };
        tickets.push_back((ticket, size, number));
        if tickets.len() > 40 || number == 2_999 {
            for (ticket, size, number) in tickets.drain(..) {
                assert_eq!(ticket.join_all().unwrap(), vec![number; size]);
            }
        }
    }
}

#[test]
fn gangs_never_meet() {
    let _limited = limited(200);
    for (capacity, lanes, looks) in [(16, 1, 0), (16, 4, 30), (4, 2, 0), (1024, 4, 100), (1, 1, 1), (3, 3, 3)]
    {
        let builder = Pool::builder().workers_log2(3).lane_capacity(capacity).shared_lanes(lanes);
        let pool = builder.looks(looks).build().unwrap();
        let inside = Arc::new((0..8).map(|_| AtomicUsize::new(0)).collect::<Vec<_>>());
        thread::scope(|threads| {
            for seed in 0..4 {
                let (pool, inside) = (&pool, &inside);
                threads.spawn(move || submit_random(pool, seed + 7, inside));
            }
        });
        pool.close();
    }
    wait_for_threads(0);
}

/// Makes the calls of a member. At each stage it panics if it is to.
fn panic_at(group: &Group<'_>, live: &Arc<AtomicUsize>, panics: impl Fn(u64) -> bool) {
    let stop = |stage| {
        if panics(stage) {
            planned();
        }
    };
    stop(0);
    if group.size() > 1 {
        drop(group.exchange(group.rank() ^ 1, Counted::new(live)));
        stop(1);
    }
    if group.size() > 2 {
        drop(group.exchange(group.rank() ^ 2, Counted::new(live)));
    }
    stop(2);
    assert_eq!(group.all_reduce(1, |a, b| a + b), group.size());
    stop(3);
    group.barrier();
    stop(4);
    if group.size() == 1 {
        stop(1);
    }
}

/// Submits a random job or gang. Returns its ticket, and whether it is to panic.
fn submit_panicking(pool: &Pool, numbers: &mut Numbers, live: &Arc<AtomicUsize>) -> (Ticket<()>, bool) {
    let (dim, fails, stage) = (numbers.below(3) as u32, numbers.below(3) == 0, numbers.below(5));
    let rank = numbers.below(1 << dim) as usize;
    let (mine, shared) = (Counted::new(live), live.clone());
    if dim == 0 && stage < 3 {
        let job = move || {
            let _mine = mine;
            if fails {
                planned();
            }
        };
        return (pool.spawn(job), fails);
    }
    let gang = move |group: &Group<'_>| {
        let _mine = &mine;
        panic_at(group, &shared, |at| fails && at == stage && group.rank() == rank);
    };
    (pool.submit(dim, gang).unwrap(), fails)
}

/// Of 100,000 jobs a third panics, at five places. Each closure and each value is dropped once.
#[test]
fn a_third_of_the_jobs_panics() {
    let _limited = limited(90);
    let live = Arc::new(AtomicUsize::new(0));
    let pool = pool(2);
    let mut numbers = Numbers::new(3);
    let mut tickets = VecDeque::new();
    let mut failed = 0;
    let mut end = |(ticket, fails): (Ticket<()>, bool)| {
        let result = ticket.join_all();
        assert_eq!(result.is_err(), fails);
        if let Err(payload) = result {
            assert_eq!(payload.downcast_ref(), Some(&Planned));
            failed += 1;
        }
    };
    for _ in 0..100_000 {
        tickets.push_back(submit_panicking(&pool, &mut numbers, &live));
        if tickets.len() > 200 {
            tickets.drain(..100).for_each(&mut end);
        }
    }
    tickets.into_iter().for_each(end);
    assert!(failed > 30_000, "only {failed} jobs have panicked");
    pool.close();
    assert_eq!(live.load(SeqCst), 0, "a closure or a value was not dropped");
    wait_for_threads(0);
}

/// Three threads, each of which waits for its job, so that the workers sleep in between.
#[test]
fn no_wake_is_lost() {
    let _limited = limited(200);
    let pool = Pool::builder().workers_log2(2).looks(0).lane_capacity(4).build().unwrap();
    thread::scope(|threads| {
        for thread in 0..3 {
            let pool = &pool;
            threads.spawn(move || {
                for number in 0..10_000_usize {
                    if number % 3 == thread {
                        let dim = (number % 9 / 3) as u32;
                        let sums = pool.run(dim, |group| group.all_reduce(1, |a, b| a + b));
                        assert_eq!(sums, vec![1 << dim; 1 << dim]);
                    } else {
                        assert_eq!(pool.spawn(move || number).join().unwrap(), number);
                    }
                }
            });
        }
    });
}

/// As many jobs as workers, each of which waits for all others: each worker is to be woken.
#[test]
fn each_worker_is_woken() {
    let _limited = limited(200);
    for dim in 1..=3 {
        let pool = pool(dim);
        for round in 0..1_000 {
            let all = Arc::new(Barrier::new(1 << dim));
            let tickets: Vec<_> = (0..1 << dim)
                .map(|_| {
                    let all = all.clone();
                    pool.spawn(move || all.wait().is_leader())
                })
                .collect();
            let leaders = tickets.into_iter().filter_map(|ticket| ticket.join().ok()).filter(|it| *it);
            assert_eq!(leaders.count(), 1);
            if round % 100 == 0 {
                thread::sleep(Duration::from_millis(1));
            }
        }
    }
}

/// One gang holds half of the workers, which lay down before. Jobs that come then need the other
/// half. The waker may name a worker of the gang, and that wake must go on to another worker.
#[test]
fn the_wake_of_a_member_goes_on() {
    let _limited = limited(200);
    let pool = pool(2);
    for round in 0..1_000 {
        let (begun, ended) = (Arc::new(Barrier::new(3)), Arc::new(Barrier::new(3)));
        let (here, there) = (begun.clone(), ended.clone());
        let gang = pool.submit(1, move |_| {
            here.wait();
            there.wait();
        });
        begun.wait();
        if round % 2 == 0 {
            thread::sleep(Duration::from_micros(200));
        }
        let both = Arc::new(Barrier::new(2));
        let other = both.clone();
        let tickets = [pool.spawn(move || both.wait()), pool.spawn(move || other.wait())];
        let leaders = tickets.map(|ticket| ticket.join().unwrap().is_leader());
        assert_eq!(leaders.into_iter().filter(|it| *it).count(), 1);
        ended.wait();
        gang.unwrap().join().unwrap();
    }
}

/// A gang is called while a job comes. The gang waits for that job, so the wake must not be lost to
/// the gang's worker.
#[test]
fn a_call_and_a_wake_at_once() {
    let _limited = limited(200);
    let pool = pool(1);
    let both = Barrier::new(2);
    for _ in 0..20_000 {
        let (sender, receiver) = channel();
        let receiver = Mutex::new(receiver);
        thread::scope(|threads| {
            threads.spawn(|| {
                both.wait();
                assert_eq!(pool.run(0, |_| receiver.lock().unwrap().recv().unwrap()), [7]);
            });
            both.wait();
            pool.detach(move || sender.send(7).unwrap());
        });
    }
}

/// Jobs whose scopes end: each runs its own children, and no other job on top of itself.
#[test]
fn waits_are_not_deep() {
    let _limited = limited(200);
    let pool = pool(2);
    let ran = AtomicUsize::new(0);
    pool.scope(|scope| {
        for _ in 0..20_000 {
            scope.detach(|| {
                let mut marks = [0; 8];
                pool.scope(|inner| marks.iter_mut().for_each(|mark| inner.detach(|| *mark = 1)));
                ran.fetch_add(marks.iter().sum::<usize>(), SeqCst);
            });
        }
    });
    assert_eq!(ran.load(SeqCst), 160_000);
}

/// Jobs that are the children of one job, and each of which waits for children of its own. In its
/// lane the other jobs come before these. The waiting jobs on top of each other are counted.
#[test]
fn waits_in_a_tree_are_not_deep() {
    thread_local! {
        static DEPTH: Cell<usize> = const { Cell::new(0) };
    }
    let _limited = limited(200);
    let pool = pool(2);
    let (ran, deepest) = (AtomicUsize::new(0), AtomicUsize::new(0));
    let (ours, count, most) = (&pool, &ran, &deepest);
    let leaf = move || {
        count.fetch_add(1, SeqCst);
    };
    let child = move || {
        DEPTH.set(DEPTH.get() + 1);
        most.fetch_max(DEPTH.get(), SeqCst);
        ours.scope(|scope| (0..8).for_each(|_| scope.detach(leaf)));
        DEPTH.set(DEPTH.get() - 1);
    };
    let root = move || ours.scope(|scope| (0..20_000).for_each(|_| scope.detach(child)));
    pool.scope(|scope| scope.detach(root));
    assert_eq!(ran.load(SeqCst), 160_000);
    assert!(deepest.load(SeqCst) <= 32, "{} jobs on top of each other", deepest.load(SeqCst));
}

/// Each worker waits in a job for jobs, and for gangs that take the whole pool.
#[test]
fn jobs_wait_for_jobs_and_gangs() {
    let _limited = limited(200);
    let builder = Pool::builder().workers_log2(1).lane_capacity(2).shared_lanes(1);
    let pool = Arc::new(builder.build().unwrap());
    for _ in 0..200 {
        let jobs = (0..4).map(|number| {
            let inner = pool.clone();
            pool.spawn(move || {
                let ticket = inner.spawn(move || number);
                let ranks = inner.run(1, |group| group.exchange(1 - group.rank(), group.rank()));
                assert_eq!(ranks, [1, 0]);
                ticket.join().unwrap()
            })
        });
        for (number, ticket) in jobs.collect::<Vec<_>>().into_iter().enumerate() {
            assert_eq!(ticket.join().unwrap(), number);
        }
    }
}

#[test]
fn close_runs_what_was_accepted() {
    let _limited = limited(200);
    for round in 0..200_usize {
        let pool = pool(2);
        let gangs: Vec<_> = (0..40_u32)
            .map(|number| {
                (
                    pool.submit(number % 3, |group| group.all_reduce(1, |a, b| a + b)).unwrap(),
                    1 << (number % 3),
                )
            })
            .collect();
        let ones: Vec<_> = (0..40).map(|number| (pool.spawn(move || number), number)).collect();
        if round % 2 == 0 {
            thread::yield_now();
        }
        pool.close();
        for (ticket, result) in gangs.into_iter().chain(ones) {
            assert!(ticket.is_finished());
            assert_eq!(ticket.join().unwrap(), result);
        }
    }
    wait_for_threads(0);
}

/// The last jobs of a closed pool: its workers race for them, and all see the end.
#[test]
fn all_threads_see_the_end() {
    let _limited = limited(200);
    for round in 0..1_000 {
        let builder = Pool::builder().workers_log2(2).shared_lanes(1).client_lanes(0).lane_capacity(16);
        let pool = builder.build().unwrap();
        // The workers fall asleep, and the close finds jobs that are not taken.
        pool.run(2, |group| group.barrier());
        thread::sleep(Duration::from_micros(100));
        let tickets: Vec<_> = (0..2 + round % 8).map(|number| pool.spawn(move || number)).collect();
        pool.close();
        assert!(tickets.iter().all(Ticket::is_finished));
        wait_for_threads(0);
    }
}

/// Each job of a pool that is closed at once runs, or its ticket says that it was cancelled.
#[test]
fn close_now_answers_each_ticket() {
    let _limited = limited(200);
    let live = Arc::new(AtomicUsize::new(0));
    for _ in 0..200 {
        let pool = pool(2);
        let ran = Arc::new(AtomicUsize::new(0));
        let tickets: Vec<Ticket<()>> = (0..80_u32)
            .map(|number| {
                let (mine, ran) = (Counted::new(&live), ran.clone());
                if number % 2 == 0 {
                    return pool.spawn(move || {
                        let _mine = mine;
                        ran.fetch_add(1, SeqCst);
                    });
                }
                let gang = move |group: &Group<'_>| {
                    let _mine = &mine;
                    group.barrier();
                    ran.fetch_add(usize::from(group.rank() == 0), SeqCst);
                };
                pool.submit(number % 3, gang).unwrap()
            })
            .collect();
        pool.close_now();
        let (done, cancelled): (Vec<_>, Vec<_>) =
            tickets.into_iter().map(Ticket::join).partition(Result::is_ok);
        assert_eq!((done.len(), done.len() + cancelled.len()), (ran.load(SeqCst), 80));
        assert!(cancelled.into_iter().all(|it| it.unwrap_err().is::<cubejobs_pool::Cancelled>()));
        assert_eq!(live.load(SeqCst), 0);
    }
    wait_for_threads(0);
}

/// Results that nobody takes, payloads and closures, of which each drop panics.
#[test]
fn drops_that_panic_end_no_worker() {
    struct Bad;
    impl Drop for Bad {
        fn drop(&mut self) {
            planned();
        }
    }
    let _limited = limited(200);
    let pool = pool(2);
    for _ in 0..50 {
        drop(pool.spawn(|| {
            thread::sleep(Duration::from_micros(50));
            Bad
        }));
        drop(pool.submit(2, |_| {
            thread::sleep(Duration::from_micros(50));
            Bad
        }));
        let owned = Bad;
        drop(pool.submit(1, move |_| {
            let _ = &owned;
        }));
        drop(pool.spawn(|| -> u8 { std::panic::resume_unwind(Box::new(Bad)) }));
        drop(pool.submit(1, |_| -> u8 { std::panic::resume_unwind(Box::new(Bad)) }));
    }
    assert_eq!(pool.run(2, |group| group.all_reduce(1, |a, b| a + b)), [4; 4]);
    wait_for_threads(4);
    pool.close();
    wait_for_threads(0);
}

/// Full lanes from each side: the jobs of a worker go elsewhere, and another thread sleeps until
/// there is room. No job is lost.
#[test]
fn small_lanes_lose_no_job() {
    let _limited = limited(200);
    let pool = Pool::builder().workers_log2(1).lane_capacity(1).shared_lanes(1).build().unwrap();
    let ran = AtomicUsize::new(0);
    let count = || {
        ran.fetch_add(1, SeqCst);
    };
    pool.scope(|scope| {
        scope.detach(|| pool.scope(|inner| (0..1_000).for_each(|_| inner.detach(count))));
    });
    assert_eq!(ran.load(SeqCst), 1_000);
    thread::scope(|threads| {
        for _ in 0..4 {
            threads.spawn(|| pool.scope(|scope| (0..2_000).for_each(|_| scope.detach(count))));
        }
    });
    assert_eq!(ran.load(SeqCst), 9_000);
    let refused =
        (0..10_000).find_map(|_| pool.try_spawn(|| thread::sleep(Duration::from_micros(100))).err());
    assert_eq!(refused.unwrap().reason, Reason::Full);
}

/// A member sends as fast as it can, and another one takes the values while they come.
#[test]
fn values_never_pass_each_other() {
    let _limited = limited(200);
    for looks in [0, 30, 3_000] {
        let pool = Pool::builder().workers_log2(1).looks(looks).build().unwrap();
        pool.run(1, |group| {
            for number in 0..100_000_u64 {
                match group.rank() {
                    0 => group.send(1, number),
                    _ => assert_eq!(group.recv::<u64>(0), number),
                }
            }
        });
    }
}

/// Scopes of one job, which ends at each time: before its owner waits, and while it falls asleep.
#[test]
fn scopes_end_while_their_owner_sleeps() {
    let _limited = limited(200);
    let pool = pool(1);
    for round in 0..20_000 {
        pool.scope(|scope| {
            scope.detach(|| ());
            (0..round % 500).for_each(|_| hint::spin_loop());
        });
    }
}

/// Panics of jobs in scopes of many threads: each scope gets one of its own.
#[test]
fn scopes_get_their_panics() {
    let _limited = limited(200);
    let pool = pool(2);
    thread::scope(|threads| {
        for thread in 0..4_u32 {
            let pool = &pool;
            threads.spawn(move || {
                for round in 0..500 {
                    let ran = AtomicUsize::new(0);
                    let result = catch_unwind(AssertUnwindSafe(|| {
                        pool.scope(|scope| {
                            for job in 0..20 {
                                let ran = &ran;
                                scope.detach(move || {
                                    ran.fetch_add(1, SeqCst);
                                    if job == round % 40 {
                                        std::panic::resume_unwind(Box::new((thread, round)));
                                    }
                                });
                            }
                        });
                    }));
                    assert_eq!(ran.load(SeqCst), 20);
                    let payload = result.err().map(|it| *it.downcast::<(u32, i32)>().unwrap());
                    assert_eq!(payload, (round % 40 < 20).then_some((thread, round)));
                }
            });
        }
    });
}
