//! What a pool does in each case that its documentation names: a test for each row of the table.

mod common;

use common::{expect_panics, limited, planned, pool, text, wait_for_threads, Counted, Planned};
use cubejobs_pool::{Cancelled, ClientError, Group, Pool, Reason, Refused, Ticket};
use std::env;
use std::io::ErrorKind;
use std::panic::{catch_unwind, resume_unwind, AssertUnwindSafe};
use std::process::Command;
use std::sync::atomic::{AtomicBool, AtomicUsize, Ordering::SeqCst};
use std::sync::mpsc::channel;
use std::sync::{Arc, Barrier, Mutex};
use std::thread;
use std::time::{Duration, Instant};

const EXPECTED: &[&str] = &[
    "a member of",
    "members of a group",
    "each member of the group",
    "the partner of a member",
    "there is no rank",
    "the root of",
    "a group of one",
    "the group is larger",
];

/// Returns whether the pool is whole: all its workers run a gang.
fn is_whole(pool: &Pool) -> bool {
    let size = pool.workers();
    let sums = pool.run(pool.dim(), |group| {
        group.barrier();
        group.all_reduce(1, |a, b| a + b)
    });
    sums == vec![size; size]
}

/// Returns the payload's text of a gang of this dimension that fails.
fn failure<T: Send + 'static>(
    pool: &Pool,
    dim: u32,
    call: impl Fn(&Group<'_>) -> T + Send + Sync + 'static,
) -> String {
    text(pool.submit(dim, call).unwrap().join_all().err().expect("the gang fails"))
}

#[test]
fn a_panic_frees_members_that_sleep() {
    let _limited = limited(30);
    let pool = pool(3);
    for stage in 0..3 {
        let gang = pool.submit(3, move |group| {
            if group.rank() == 5 {
                thread::sleep(Duration::from_millis(20));
                planned();
            }
            match stage {
                0 => group.barrier(),
                1 => {
                    group.recv::<u64>(5);
                }
                _ => drop(group.half().exchange((group.rank() % 4) ^ 1, String::new())),
            }
        });
        let payload = gang.unwrap().join_all().unwrap_err();
        assert_eq!(payload.downcast_ref(), Some(&Planned));
        assert!(is_whole(&pool));
    }
}

/// The member that comes last wakes the others. Nothing else does: it then waits for one of them by
/// a channel.
#[test]
fn a_barrier_wakes_members_that_sleep() {
    let _limited = limited(30);
    let pool = pool(2);
    for _ in 0..20 {
        let (sender, receiver) = channel();
        let receiver = Mutex::new(receiver);
        pool.run(2, |group| {
            if group.rank() == 0 {
                thread::sleep(Duration::from_millis(2));
            }
            group.barrier();
            if group.rank() == 0 {
                let mut ranks = [0; 3].map(|_| receiver.lock().unwrap().recv().unwrap());
                ranks.sort_unstable();
                assert_eq!(ranks, [1, 2, 3]);
            } else {
                sender.send(group.rank()).unwrap();
            }
        });
    }
}

#[test]
fn the_first_panic_is_the_one_that_is_returned() {
    let _limited = limited(30);
    let pool = pool(1);
    let gang = pool.submit(1, |group| {
        if group.rank() == 1 {
            while !group.is_poisoned() {
                thread::yield_now();
            }
        }
        resume_unwind(Box::new(group.rank()));
    });
    let result: Result<(), _> = gang.unwrap().join();
    assert_eq!(result.unwrap_err().downcast_ref(), Some(&0_usize));
}

#[test]
fn a_member_that_has_left_frees_those_that_wait_for_it() {
    let _limited = limited(30);
    expect_panics(EXPECTED);
    let pool = pool(2);
    let gone = "a member of the group has left, and another one waits for it";
    assert_eq!(failure(&pool, 1, |group| (group.rank() == 0).then(|| group.exchange(1, 5))), gone);
    assert_eq!(failure(&pool, 1, |group| (group.rank() == 1).then(|| group.recv::<u8>(0))), gone);
    assert_eq!(
        failure(&pool, 2, |group| if group.rank() != 3 {
            group.barrier();
        }),
        gone
    );
    // The third value has no room, and nobody takes the first.
    assert_eq!(
        failure(&pool, 1, |group| if group.rank() == 0 {
            (0..3).for_each(|it| group.send(1, it));
        }),
        gone
    );
    assert!(is_whole(&pool));
}

#[test]
fn values_that_nobody_takes_are_dropped() {
    let _limited = limited(30);
    let live = Arc::new(AtomicUsize::new(0));
    let pool = pool(1);
    for fails in [false, true] {
        let count = live.clone();
        let gang = pool.submit(1, move |group| {
            if group.rank() == 0 {
                group.send(1, Counted::new(&count));
                group.send(1, Counted::new(&count));
            }
            if fails {
                planned();
            }
        });
        assert_eq!(gang.unwrap().join().is_err(), fails);
        assert_eq!(live.load(SeqCst), 0);
    }
}

#[test]
fn values_keep_their_order() {
    let _limited = limited(30);
    let pool = pool(2);
    let got = pool.run(2, |group| match group.rank() {
        0 => {
            (0..1_000_usize).for_each(|number| group.send(1, number));
            for number in 0..1_000 {
                group.send(1, 1_000 + number);
                group.send(2 + number % 2, number);
            }
            vec![]
        }
        1 => (0..2_000).map(|_| group.recv(0)).collect::<Vec<usize>>(),
        _ => (0..500).map(|_| group.recv(0)).collect(),
    });
    assert_eq!(got[1], (0..2_000).collect::<Vec<_>>());
    assert_eq!(got[2], (0..1_000).step_by(2).collect::<Vec<_>>());
    assert_eq!(got[3], (1..1_000).step_by(2).collect::<Vec<_>>());
}

#[test]
fn partners_of_two_types_panic() {
    let _limited = limited(30);
    expect_panics(EXPECTED);
    let live = Arc::new(AtomicUsize::new(0));
    let pool = pool(1);
    let types = "members of a group exchange values of different types";
    let both = |group: &Group<'_>| {
        let at_zero = || {
            group.exchange(1, 5_u64);
        };
        let at_one = || {
            group.exchange(0, 5_i64);
        };
        let call: &dyn Fn() = if group.rank() == 0 { &at_zero } else { &at_one };
        text(catch_unwind(AssertUnwindSafe(call)).unwrap_err())
    };
    assert_eq!(pool.run(1, both), [types, types]);
    let count = live.clone();
    let boxed = move |group: &Group<'_>| match group.rank() {
        0 => drop(group.exchange(1, Counted::new(&count))),
        _ => drop(group.exchange(0, "a word")),
    };
    assert_eq!(failure(&pool, 1, boxed), types);
    assert_eq!(live.load(SeqCst), 0);
    assert!(is_whole(&pool));
}

#[test]
fn a_partner_is_another_member() {
    let _limited = limited(30);
    expect_panics(EXPECTED);
    let pool = pool(2);
    assert_eq!(
        failure(&pool, 1, |group| group.exchange(group.rank(), 5)),
        "the partner of a member is another one"
    );
    assert_eq!(failure(&pool, 1, |group| group.exchange(2, 5)), "there is no rank 2 in a group of 2");
    assert_eq!(failure(&pool, 1, |group| group.send(7, 5)), "there is no rank 7 in a group of 2");
    assert_eq!(failure(&pool, 0, |group| group.recv::<u8>(0)), "the partner of a member is another one");
    assert_eq!(failure(&pool, 1, |group| group.broadcast(2, Some(5))), "there is no rank 2 in a group of 2");
    assert_eq!(
        failure(&pool, 1, |group| group.broadcast::<u8>(0, None)),
        "the root of a broadcast has no value"
    );
    let short = "the root of a scatter has not one value for each member";
    assert_eq!(failure(&pool, 1, |group| group.scatter(0, Some(vec![5; 1 + group.rank()]))), short);
    let uneven = "a member of an all-to-all has not one value for each member";
    assert_eq!(failure(&pool, 1, |group| group.all_to_all(vec![5; 1 + 2 * group.rank()])), uneven);
    assert_eq!(failure(&pool, 0, |group| group.all_to_all::<u8>(vec![])), uneven);
    assert_eq!(failure(&pool, 0, |group| group.half().rank()), "a group of one has no halves");
    assert!(is_whole(&pool));
}

#[test]
fn calls_that_do_not_fit_panic_at_all_members() {
    let _limited = limited(30);
    expect_panics(EXPECTED);
    let pool = pool(2);
    let stuck = "each member of the group waits for another one: their calls do not fit";
    // A cycle: 0 with 1, 1 with 2, 2 with 3, 3 with 0.
    let cycle = |group: &Group<'_>| {
        let call = || {
            group.exchange((group.rank() + 1) % 4, 5);
        };
        text(catch_unwind(AssertUnwindSafe(call)).unwrap_err())
    };
    for _ in 0..200 {
        let got = pool.run(2, cycle);
        assert!(got.iter().all(|it| it == stuck), "{got:?}");
    }
    // A member has two values on their way, and no room for a third.
    let all_at_once = |group: &Group<'_>| {
        let others = || (0..group.size()).filter(|it| *it != group.rank());
        others().for_each(|it| group.send(it, group.rank()));
        others().map(|it| group.recv::<usize>(it)).sum::<usize>()
    };
    assert_eq!(pool.run(1, all_at_once), [1, 0]);
    assert_eq!(failure(&pool, 2, all_at_once), stuck);
    // One half is at a barrier of the whole group, the other at one of its own.
    let halves = |group: &Group<'_>| {
        if group.rank() < 2 {
            group.barrier();
        } else {
            group.recv::<u8>(group.rank() ^ 1);
        }
    };
    assert_eq!(failure(&pool, 2, halves), stuck);
    assert!(is_whole(&pool));
}

/// Groups in which all members sleep most of the time, and can go on.
#[test]
fn no_group_is_stuck_that_can_go_on() {
    let _limited = limited(30);
    let pool = Pool::builder().workers_log2(3).looks(0).build().unwrap();
    let sums = pool.run(3, |group| {
        let mut sum = 0;
        for round in 0..2_000_usize {
            sum += group.exchange(group.size() - 1 - group.rank(), round);
            if round % 3 == 0 {
                group.barrier();
            }
            if round % 5 == 0 {
                sum += group.half().all_reduce(0, |a, b| a + b);
            }
        }
        sum
    });
    assert_eq!(sums, [1_999_000; 8]);
}

#[test]
fn a_panic_in_a_drop_of_the_closure_is_that_of_the_gang() {
    struct Bad;
    impl Drop for Bad {
        fn drop(&mut self) {
            planned();
        }
    }
    let _limited = limited(30);
    let pool = pool(1);
    let owned = Bad;
    let gang = pool.submit(1, move |_| {
        let _ = &owned;
    });
    assert_eq!(gang.unwrap().join().unwrap_err().downcast_ref(), Some(&Planned));
    assert!(is_whole(&pool));
}

#[test]
fn a_group_wider_than_the_pool_is_refused() {
    let _limited = limited(30);
    expect_panics(EXPECTED);
    let pool = pool(1);
    let word = String::from("mine");
    let refused = pool.submit(2, move |group| word.len() + group.rank()).unwrap_err();
    assert_eq!(refused.reason, Reason::TooWide);
    assert_eq!(pool.submit(1, refused.job).unwrap().join_all().unwrap(), [4, 5]);
    assert_eq!(pool.try_submit(40, |_| ()).unwrap_err().reason, Reason::TooWide);
    let run = catch_unwind(AssertUnwindSafe(|| pool.run(40, |_| ())));
    assert_eq!(text(run.unwrap_err()), "the group is larger than the pool");
    let in_scope = pool.scope(|scope| scope.submit(40, |_| ()).unwrap_err().reason);
    assert_eq!(in_scope, Reason::TooWide);
}

/// A gang that holds all workers of a pool until it is dropped.
struct Holder {
    stop: Arc<AtomicBool>,
    gang: Option<Ticket<()>>,
}

impl Holder {
    fn new(pool: &Pool) -> Self {
        let (begun, stop) = (Arc::new(Barrier::new(pool.workers() + 1)), Arc::new(AtomicBool::new(false)));
        let (here, until) = (begun.clone(), stop.clone());
        let gang = pool.submit(pool.dim(), move |_| {
            here.wait();
            while !until.load(SeqCst) {
                thread::sleep(Duration::from_millis(1));
            }
        });
        begun.wait();
        Holder { stop, gang: gang.ok() }
    }
}

impl Drop for Holder {
    fn drop(&mut self) {
        self.stop.store(true, SeqCst);
        self.gang.take().unwrap().join().unwrap();
    }
}

/// Tries until the lane is full. Returns the tickets, and what was refused.
fn until_full<T, F>(
    mut attempt: impl FnMut(F) -> Result<Ticket<T>, Refused<F>>,
    call: impl Fn() -> F,
) -> (Vec<Ticket<T>>, F) {
    let mut tickets = Vec::new();
    loop {
        match attempt(call()) {
            Ok(ticket) => tickets.push(ticket),
            Err(refused) => {
                assert_eq!(refused.reason, Reason::Full);
                return (tickets, refused.job);
            }
        }
    }
}

#[test]
fn a_full_lane_of_gangs_gives_the_closure_back() {
    let _limited = limited(30);
    let pool = Pool::builder().workers_log2(1).lane_capacity(2).shared_lanes(1).build().unwrap();
    let mut client = pool.client().unwrap();
    let holder = Holder::new(&pool);
    let word = || {
        let word = String::from("mine");
        move |_: &Group<'_>| word.len()
    };
    let (mut gangs, refused) = until_full(|call| pool.try_submit(1, call), word);
    // Two gangs wait for a block, and two are in the lane. Two more are in that of the client.
    assert_eq!(gangs.len(), 4);
    let (ours, other) = until_full(|call| client.try_submit(1, call), word);
    assert_eq!(ours.len(), 2);
    drop(holder);
    gangs.extend(ours);
    gangs.push(pool.submit(1, refused).unwrap());
    gangs.push(client.submit(1, other).unwrap());
    assert!(gangs.into_iter().all(|ticket| ticket.join_all().unwrap() == [4, 4]));
}

#[test]
fn a_full_lane_of_jobs_gives_the_closure_back() {
    let _limited = limited(30);
    let pool = Pool::builder().workers_log2(1).lane_capacity(2).shared_lanes(1).build().unwrap();
    let mut client = pool.client().unwrap();
    let holder = Holder::new(&pool);
    let word = || {
        let word = String::from("mine");
        move || word.len()
    };
    let (mut jobs, refused) = until_full(|call| pool.try_spawn(call), word);
    let (ours, other) = until_full(|call| client.try_spawn(call), word);
    // Two jobs are in each lane. The search for each of the two workers may have moved one more.
    let count = jobs.len() + ours.len();
    assert!((4..=6).contains(&count), "{count} jobs were accepted");
    assert_eq!((refused(), other()), (4, 4));
    drop(holder);
    jobs.extend(ours);
    assert!(jobs.into_iter().all(|ticket| ticket.join().unwrap() == 4));
}

#[test]
fn another_thread_sleeps_until_there_is_room() {
    let _limited = limited(30);
    let pool = Pool::builder().workers_log2(0).lane_capacity(1).shared_lanes(1).build().unwrap();
    let (go, wait) = channel();
    let first = pool.spawn(move || wait.recv().unwrap());
    let sent = AtomicUsize::new(0);
    thread::scope(|threads| {
        threads.spawn(|| {
            for _ in 0..3 {
                pool.detach(|| ());
                sent.fetch_add(1, SeqCst);
            }
            assert_eq!(pool.run(0, |group| group.size()), [1]);
        });
        thread::sleep(Duration::from_millis(100));
        // One job is in the lane, and perhaps the first one was when this one came.
        assert!(sent.load(SeqCst) <= 2);
        go.send(()).unwrap();
    });
    assert_eq!(sent.load(SeqCst), 3);
    first.join().unwrap();
}

/// A worker never waits for room: it could be the one that makes it.
#[test]
fn a_worker_gets_its_gang_back_if_the_lane_is_full() {
    let _limited = limited(30);
    let pool = Arc::new(Pool::builder().workers_log2(0).lane_capacity(1).shared_lanes(1).build().unwrap());
    let inner = pool.clone();
    let job = pool.spawn(move || {
        let mut client = inner.client().unwrap();
        let gang = || |group: &Group<'_>| group.size();
        let (mut gangs, refused) = until_full(|call| inner.submit(0, call), gang);
        // One gang has called this worker, one waits for a block, and one is in the lane.
        assert_eq!(gangs.len(), 3);
        let (ours, other) = until_full(|call| client.submit(0, call), gang);
        assert_eq!((ours.len(), [refused, other].len()), (1, 2));
        gangs.extend(ours);
        gangs
    });
    let gangs = job.join().unwrap();
    assert!(gangs.into_iter().all(|gang| gang.join_all().unwrap() == [1]));
}

#[test]
fn a_wait_in_a_gang_panics_with_advice() {
    let _limited = limited(30);
    expect_panics(EXPECTED);
    let pool = Arc::new(pool(1));
    let advice = "could stand still";
    for kind in 0..3 {
        let inner = pool.clone();
        let gang = pool.submit(1, move |group| {
            if group.rank() == 0 {
                match kind {
                    0 => drop(inner.spawn(|| thread::sleep(Duration::from_millis(20))).join()),
                    1 => drop(inner.run(0, |_| ())),
                    _ => inner.scope(|_| ()),
                }
            }
            group.barrier();
        });
        let text = text(gang.unwrap().join_all().unwrap_err());
        assert!(text.contains(advice), "{text}");
        assert!(is_whole(&pool));
    }
}

/// A job waits for another one, a scope and a gang, in a pool of one worker. The job itself or
/// another thread runs what it waits for.
#[test]
fn what_a_job_waits_for_is_run() {
    let _limited = limited(30);
    let pool = Arc::new(pool(0));
    let inner = pool.clone();
    let outer = pool.spawn(move || {
        let ticket = inner.spawn(|| 7);
        let from_scope = inner.scope(|scope| scope.spawn(|| 8).join().unwrap());
        let from_gang = inner.run(0, |group| group.size());
        (ticket.join().unwrap(), from_scope, from_gang)
    });
    assert_eq!(outer.join().unwrap(), (7, 8, vec![1]));
}

/// A job waits for one that another thread runs. Its worker is not lost to the pool: a job that
/// comes then is run.
#[test]
fn a_job_that_waits_hears_of_new_jobs() {
    let _limited = limited(30);
    let pool = Arc::new(pool(1));
    for _ in 0..100 {
        let (sender, receiver) = channel();
        let inner = pool.clone();
        let outer = pool.spawn(move || {
            let slow = inner.spawn(move || receiver.recv().unwrap());
            slow.join().unwrap()
        });
        thread::sleep(Duration::from_millis(1));
        pool.spawn(move || sender.send(7).unwrap()).join().unwrap();
        assert_eq!(outer.join().unwrap(), 7);
    }
}

/// A job has waited for another one, and goes on. A job that comes then is run meanwhile.
#[test]
fn a_wait_leaves_its_worker_up() {
    let _limited = limited(30);
    let pool = Arc::new(pool(1));
    for _ in 0..200 {
        let (start, begun) = channel();
        let (end, ended) = channel::<()>();
        let (go, wait) = channel::<()>();
        let (inner, (waited, has_waited)) = (pool.clone(), channel());
        let outer = pool.spawn(move || {
            let other = inner.spawn(move || {
                start.send(()).unwrap();
                ended.recv().unwrap();
            });
            begun.recv().unwrap();
            other.join().unwrap();
            waited.send(()).unwrap();
            wait.recv().unwrap();
        });
        thread::sleep(Duration::from_millis(2));
        end.send(()).unwrap();
        has_waited.recv().unwrap();
        thread::sleep(Duration::from_millis(2));
        assert_eq!(pool.spawn(|| 7).join().unwrap(), 7);
        go.send(()).unwrap();
        outer.join().unwrap();
    }
}

#[test]
fn scopes_borrow_and_nest() {
    let _limited = limited(30);
    let pool = pool(2);
    let mut squares: Vec<usize> = (0..1_000).collect();
    pool.scope(|scope| squares.iter_mut().for_each(|number| scope.detach(|| *number *= *number)));
    assert!(squares.iter().enumerate().all(|(at, number)| *number == at * at));
    let total = AtomicUsize::new(0);
    let add = |number| {
        total.fetch_add(number, SeqCst);
    };
    pool.scope(|scope| {
        for _ in 0..50 {
            let (pool, add) = (&pool, &add);
            scope.detach(move || (0..20).for_each(|_| scope.detach(|| add(1))));
            scope.detach(move || pool.scope(|inner| (0..20).for_each(|_| inner.detach(|| add(1)))));
            drop(scope.submit(1, move |group| add(group.all_reduce(1, |a, b| a + b))));
        }
    });
    assert_eq!(total.load(SeqCst), 2 * 50 * 20 + 50 * 4);
    let words = ["a", "bc", "def"];
    let lengths = pool.scope(|scope| {
        let ones = words.map(|word| scope.spawn(move || word.len()));
        let gang = scope.submit(1, |group| words[group.rank()]).unwrap();
        (ones.map(|ticket| ticket.join().unwrap()), gang.join_all().unwrap())
    });
    assert_eq!(lengths, ([1, 2, 3], vec!["a", "bc"]));
}

#[test]
fn a_panic_of_a_scope_comes_when_all_its_jobs_have_ended() {
    let _limited = limited(30);
    let pool = pool(2);
    let ran = AtomicUsize::new(0);
    let result = catch_unwind(AssertUnwindSafe(|| {
        pool.scope(|scope| {
            for number in 0..100 {
                let ran = &ran;
                scope.detach(move || {
                    ran.fetch_add(1, SeqCst);
                    if number == 3 {
                        planned();
                    }
                });
            }
        });
    }));
    assert_eq!(result.unwrap_err().downcast_ref(), Some(&Planned));
    assert_eq!(ran.load(SeqCst), 100);
    // A panic that a ticket has returned is over. One whose ticket is dropped is the scope's.
    let joined = pool.scope(|scope| scope.spawn(|| -> u8 { planned() }).join().is_err());
    assert!(joined);
    for gang in [false, true] {
        let result = catch_unwind(AssertUnwindSafe(|| {
            pool.scope(|scope| match gang {
                true => drop(scope.submit(1, |_| planned())),
                false => drop(scope.spawn(|| planned())),
            });
        }));
        assert_eq!(result.unwrap_err().downcast_ref(), Some(&Planned));
    }
}

#[test]
fn what_a_gang_owns_is_dropped_before_its_scope_returns() {
    struct Late<'a>(&'a AtomicBool);
    impl Drop for Late<'_> {
        fn drop(&mut self) {
            thread::sleep(Duration::from_millis(2));
            self.0.store(true, SeqCst);
        }
    }
    let _limited = limited(30);
    let pool = pool(2);
    for _ in 0..50 {
        let is_gone = AtomicBool::new(false);
        pool.scope(|scope| {
            let late = Late(&is_gone);
            drop(scope.submit(2, move |_| {
                let _ = &late;
            }));
        });
        assert!(is_gone.load(SeqCst));
    }
}

#[test]
fn a_pool_may_be_dropped_by_its_own_job() {
    let _limited = limited(30);
    for dim in [0, 2] {
        let pool = Arc::new(pool(dim));
        let inner = pool.clone();
        let (sender, receiver) = channel::<()>();
        let ticket = pool.spawn(move || {
            receiver.recv().unwrap();
            drop(inner);
            7
        });
        drop(pool);
        sender.send(()).unwrap();
        assert_eq!(ticket.join().unwrap(), 7);
        wait_for_threads(0);
    }
}

#[test]
fn a_closed_pool_refuses_its_clients() {
    let _limited = limited(30);
    let pool = pool(1);
    let mut client = pool.client().unwrap();
    let ticket = client.spawn(|| 7).unwrap();
    pool.close();
    assert!(ticket.is_finished());
    let Refused { reason, job, .. } = client.spawn(|| 8).unwrap_err();
    assert_eq!((reason, job()), (Reason::Closed, 8));
    assert_eq!(client.try_spawn(|| 8).unwrap_err().reason, Reason::Closed);
    assert_eq!(client.detach(|| ()).unwrap_err().reason, Reason::Closed);
    assert_eq!(client.submit(1, |_| ()).unwrap_err().reason, Reason::Closed);
    let Refused { reason, job, .. } = client.try_submit(2, |_| 9).unwrap_err();
    assert_eq!(reason, Reason::TooWide);
    assert_eq!(client.try_submit(0, job).unwrap_err().reason, Reason::Closed);
    wait_for_threads(0);
}

/// A client sleeps until there is room, while the pool is closed. It hears of that at once, and not
/// from the next job that is taken.
#[test]
fn a_close_wakes_a_client_that_waits_for_room() {
    let _limited = limited(30);
    for round in 0..100 {
        let pool = Pool::builder().workers_log2(0).lane_capacity(1).build().unwrap();
        let (sender, receiver) = channel::<()>();
        let first = pool.spawn(move || receiver.recv().is_ok());
        let mut client = pool.client().unwrap();
        let producer = thread::spawn(move || {
            let accepted = std::iter::from_fn(|| match round % 2 {
                0 => client.spawn(|| 7).ok(),
                _ => client.submit(0, |_| 7).ok(),
            });
            accepted.collect::<Vec<_>>()
        });
        thread::sleep(Duration::from_micros(50 * round));
        let closer = thread::spawn(|| pool.close());
        let tickets = producer.join().unwrap();
        sender.send(()).unwrap();
        closer.join().unwrap();
        assert!(first.join().unwrap());
        assert!(tickets.into_iter().all(|ticket| ticket.join().unwrap() == 7));
    }
}

#[test]
fn a_client_keeps_its_order() {
    let _limited = limited(30);
    let pool = pool(0);
    let mut client = pool.client().unwrap();
    let (sender, receiver) = channel();
    for number in 0..10_000 {
        let sender = sender.clone();
        client.detach(move || sender.send(number).unwrap()).unwrap();
    }
    drop((client, sender));
    assert!(receiver.iter().eq(0..10_000));
    // A lane that is back is for the next client.
    let all: Vec<_> = (0..4).map(|_| pool.client().unwrap()).collect();
    assert_eq!(pool.client().unwrap_err(), ClientError::NoneLeft);
    drop(all);
    assert!(pool.client().is_ok());
}

#[test]
fn close_now_drops_what_has_not_begun() {
    let _limited = limited(30);
    let pool = pool(0);
    let live = Arc::new(AtomicUsize::new(0));
    let (sender, receiver) = channel::<()>();
    let (begun, begins) = channel();
    let first = pool.spawn(move || {
        begun.send(()).unwrap();
        receiver.recv().is_ok()
    });
    begins.recv().unwrap();
    let (one, gang) = (Counted::new(&live), Counted::new(&live));
    let one = pool.spawn(move || drop(one));
    let gang = pool.submit(0, move |_| {
        let _ = &gang;
    });
    let mut client = pool.client().unwrap();
    let closer = thread::spawn(|| pool.close_now());
    while client.try_spawn(|| ()).err().is_none_or(|refused| refused.reason != Reason::Closed) {
        thread::yield_now();
    }
    sender.send(()).unwrap();
    closer.join().unwrap();
    assert!(first.join().unwrap());
    assert!(one.join().unwrap_err().is::<Cancelled>());
    // The gang was called before the close: its only worker ran the first job.
    gang.unwrap().join().unwrap();
    assert_eq!(live.load(SeqCst), 0);
    wait_for_threads(0);
}

#[test]
fn numbers_out_of_range_are_refused() {
    let _limited = limited(30);
    let text = |builder: cubejobs_pool::Builder| {
        let error = builder.build().unwrap_err();
        assert_eq!(error.kind(), ErrorKind::InvalidInput);
        error.to_string()
    };
    assert_eq!(text(Pool::builder().workers_log2(11)), "the dimension is 11, and not from 0 to 10");
    assert_eq!(text(Pool::builder().lane_capacity(0)), "the capacity of a lane is 0, and not from 1 to 1024");
    assert_eq!(
        text(Pool::builder().lane_capacity(1025)),
        "the capacity of a lane is 1025, and not from 1 to 1024"
    );
    assert_eq!(
        text(Pool::builder().shared_lanes(0)),
        "the number of shared lanes is 0, and not from 1 to 1024"
    );
    assert_eq!(
        text(Pool::builder().client_lanes(1025)),
        "the number of client lanes is 1025, and not from 0 to 1024"
    );
}

/// Memory runs out for the lanes, and then for the stacks of threads: the builder says so, and leaves
/// no thread. The test runs again in a process with a limit. A stack is large there, so that enough
/// is left for the threads that have begun: std panics in a thread that has no memory.
#[test]
fn a_limit_of_memory_is_an_error() {
    const LIMITED: &str = "POOL_TEST_IS_LIMITED";
    if env::var_os(LIMITED).is_none() {
        let again = "ulimit -v 200000 && exec \"$0\" --exact a_limit_of_memory_is_an_error";
        let test = env::current_exe().unwrap();
        let output = Command::new("sh")
            .arg("-c")
            .arg(again)
            .arg(test)
            .env(LIMITED, "yes")
            .env("MALLOC_ARENA_MAX", "1")
            .output()
            .unwrap();
        let said = String::from_utf8_lossy(&output.stdout);
        assert!(output.status.success() && said.contains("1 passed"), "{said}");
        return;
    }
    let _limited = limited(30);
    let large = Pool::builder().workers_log2(10).shared_lanes(1024).client_lanes(1024);
    assert_eq!(large.build().unwrap_err().kind(), ErrorKind::OutOfMemory);
    let many = Pool::builder().workers_log2(3).stack_size(50 << 20);
    assert_eq!(many.build().unwrap_err().kind(), ErrorKind::WouldBlock);
    wait_for_threads(0);
    assert!(is_whole(&pool(1)));
}

#[test]
fn an_idle_pool_takes_no_time() {
    let _limited = limited(30);
    let pool = pool(3);
    pool.run(3, |group| group.barrier());
    // After its last job a worker looks for another one, and only then lies down.
    pool.scope(|scope| (0..1_000).for_each(|_| scope.detach(|| ())));
    thread::sleep(Duration::from_millis(100));
    let before = used();
    thread::sleep(Duration::from_secs(1));
    let used = used() - before;
    assert!(used < 1_000, "8 idle workers take {used} us of processor time in a second");
}

/// Returns the microseconds of processor time of the threads of pools.
fn used() -> u64 {
    let tasks = std::fs::read_dir("/proc/self/task").unwrap().filter_map(Result::ok);
    let read =
        |task: &std::fs::DirEntry, name| std::fs::read_to_string(task.path().join(name)).unwrap_or_default();
    let of_pool = tasks.filter(|task| read(task, "comm").starts_with("gang-"));
    let times = of_pool.filter_map(|task| read(&task, "schedstat").split(' ').next()?.parse::<u64>().ok());
    times.sum::<u64>() / 1_000
}

/// One gang of the whole pool beside a full stream of small ones: it is passed a few times, and
/// then it has its block.
#[test]
fn the_oldest_gang_is_not_passed_for_ever() {
    let _limited = limited(200);
    let pool = pool(3);
    let stop = AtomicBool::new(false);
    let begun = AtomicUsize::new(0);
    thread::scope(|threads| {
        for _ in 0..2 {
            threads.spawn(|| {
                while !stop.load(SeqCst) {
                    pool.scope(|scope| {
                        for _ in 0..50 {
                            drop(scope.submit(1, |_| {
                                begun.fetch_add(1, SeqCst);
                                thread::sleep(Duration::from_micros(300));
                            }));
                        }
                    });
                }
            });
        }
        for _ in 0..20 {
            let start = Instant::now();
            assert_eq!(pool.run(3, |group| group.all_reduce(1, |a, b| a + b)), [8; 8]);
            assert!(start.elapsed() < Duration::from_secs(2), "after {:?}", start.elapsed());
        }
        stop.store(true, SeqCst);
    });
    assert!(begun.load(SeqCst) > 100);
}

/// Threads whose gangs always fill two lanes of four. The other lanes have their turn.
#[test]
fn a_full_lane_keeps_no_other_lane_waiting() {
    let _limited = limited(200);
    let pool = Pool::builder().workers_log2(3).lane_capacity(16).build().unwrap();
    let stop = AtomicBool::new(false);
    thread::scope(|threads| {
        for _ in 0..2 {
            threads.spawn(|| {
                while !stop.load(SeqCst) {
                    drop(pool.submit(1, |_| thread::sleep(Duration::from_micros(300))));
                }
            });
        }
        thread::sleep(Duration::from_millis(50));
        // Each of these threads has the next lane.
        let wide = || {
            let start = Instant::now();
            let sums = pool.run(3, |group| group.all_reduce(1, |a, b| a + b));
            (sums, start.elapsed())
        };
        let all: Vec<_> = (0..4).map(|_| threads.spawn(wide)).collect();
        let ends: Vec<_> = all.into_iter().map(|it| it.join().unwrap()).collect();
        stop.store(true, SeqCst);
        for (sums, time) in ends {
            assert_eq!(sums, [8; 8]);
            assert!(time < Duration::from_secs(5), "after {time:?}");
        }
    });
}

/// A small job and a gang wait for one worker, which runs a gang.
#[test]
fn a_small_job_goes_first_after_a_gang() {
    let _limited = limited(30);
    let pool = pool(0);
    for _ in 0..20 {
        let order = Mutex::new(Vec::new());
        let (sender, receiver) = channel::<()>();
        let (receiver, (start, begun)) = (Mutex::new(receiver), channel());
        pool.scope(|scope| {
            let first = scope.submit(0, |_| {
                start.send(()).unwrap();
                receiver.lock().unwrap().recv().unwrap();
            });
            begun.recv().unwrap();
            let second = scope.submit(0, |_| order.lock().unwrap().push("gang"));
            scope.detach(|| order.lock().unwrap().push("job"));
            sender.send(()).unwrap();
            assert!(first.is_ok() && second.is_ok());
        });
        assert_eq!(*order.lock().unwrap(), ["job", "gang"]);
    }
}

/// Gangs of the whole pool beside a full stream of one-worker jobs: a worker comes when its job is
/// over.
#[test]
fn a_gang_is_not_starved_by_small_jobs() {
    let _limited = limited(200);
    let pool = pool(2);
    let stop = AtomicBool::new(false);
    thread::scope(|threads| {
        for _ in 0..2 {
            threads.spawn(|| {
                while !stop.load(SeqCst) {
                    pool.detach(|| thread::sleep(Duration::from_micros(500)));
                }
            });
        }
        for _ in 0..50 {
            let start = Instant::now();
            pool.run(2, |group| group.barrier());
            assert!(start.elapsed() < Duration::from_millis(500), "after {:?}", start.elapsed());
        }
        stop.store(true, SeqCst);
    });
}

/// A worker of one pool waits for a job of another pool. It sleeps, and runs none of its own jobs.
#[test]
fn pools_wait_for_each_other() {
    let _limited = limited(30);
    let (one, two) = (pool(1), pool(1));
    let sums = one.run(1, |group| {
        let rank = group.rank();
        two.run(1, |inner| inner.rank() + rank).iter().sum::<usize>()
    });
    assert_eq!(sums, [1, 3]);
}
