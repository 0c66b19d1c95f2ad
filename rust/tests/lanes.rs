//! Lanes: each error, drops in any order, sleep, and jobs of many threads.

use cubejobs::lanes::{
    DealError, Found, Lane, Lanes, OpenError, Out, Rest, Sizes, SubmitError, TakeError, Worker, MAX_CAPACITY,
    MAX_LANES, MAX_WORKERS,
};
use std::collections::VecDeque;
use std::error::Error;
use std::mem::forget;
use std::sync::atomic::{AtomicU64, Ordering::SeqCst};
use std::sync::{Arc, Barrier};
use std::thread;
use std::time::Duration;

const THREADS: u32 = 4;
const JOBS: u64 = 5_000;

fn sizes(lanes: u32, workers: u32, capacity: u64) -> Sizes {
    Sizes { lanes, workers, capacity }
}

fn open(lanes: u32, workers: u32, capacity: u64) -> Lanes<u64> {
    Lanes::new(sizes(lanes, workers, capacity)).unwrap()
}

fn payloads(rest: Rest<u64>) -> Vec<u64> {
    rest.map(|job| job.payload).collect()
}

fn is_send<T: Send>() {}
fn is_sync<T: Sync>() {}

#[test]
fn handles_go_to_other_threads() {
    is_send::<Lanes<u64>>();
    is_sync::<Lanes<u64>>();
    is_send::<Lane<Box<std::cell::Cell<u8>>>>();
    is_send::<Worker<Box<std::cell::Cell<u8>>>>();
    is_send::<Rest<Box<std::cell::Cell<u8>>>>();
}

#[test]
fn sizes_have_limits() {
    let refused = [
        sizes(0, 1, 1),
        sizes(1, 0, 1),
        sizes(1, 1, 0),
        sizes(MAX_LANES + 1, 1, 1),
        sizes(1, MAX_WORKERS + 1, 1),
        sizes(1, 1, MAX_CAPACITY + 1),
        sizes(u32::MAX, u32::MAX, u64::MAX),
    ];
    for it in refused {
        assert_eq!(Lanes::<u64>::new(it).unwrap_err(), OpenError::BadSizes, "{it:?}");
    }
    assert_eq!(open(MAX_LANES, 1, 1).finish().unwrap().count(), 0);
    assert_eq!(open(1, MAX_WORKERS, MAX_CAPACITY).finish().unwrap().count(), 0);
}

#[test]
fn refusals_say_why() {
    let lanes = open(2, 1, 2);
    let (mut lane, other, mut worker) =
        (lanes.lane().unwrap(), lanes.lane().unwrap(), lanes.worker().unwrap());
    assert_eq!(lanes.lane().unwrap_err(), DealError::NoneLeft);
    assert_eq!(lanes.worker().unwrap_err(), DealError::NoneLeft);
    assert_eq!(worker.take(0), Err(TakeError::Empty));
    assert_eq!(worker.take_any(1), Err(TakeError::Empty));
    assert_eq!(worker.look(1), Err(TakeError::Empty));
    assert_eq!(worker.take(2), Err(TakeError::BadLane));
    assert_eq!(worker.take_any(2), Err(TakeError::BadLane));
    assert_eq!(worker.look(2), Err(TakeError::BadLane));
    assert_eq!(lane.submit(70, 3).unwrap().seq, 0);
    assert_eq!(lane.submit(71, u32::MAX).unwrap().seq, 1);
    let refused = lane.submit(72, 0).unwrap_err();
    assert_eq!((refused.reason, refused.payload), (SubmitError::Full, 72));
    assert_eq!(worker.look(0), Ok(2));
    let job = worker.take(0).unwrap();
    assert_eq!((job.lane, job.seq, job.dim, job.payload), (0, 0, 3, 70));
    let job = worker.take_any(1).unwrap();
    assert_eq!((job.lane, job.seq, job.dim, job.payload), (0, 1, u32::MAX, 71));
    lane.submit(73, 0).unwrap();
    assert_eq!(lanes.close(), Some(3));
    assert_eq!(lanes.close(), None);
    assert_eq!(lane.submit(74, 0).unwrap_err().reason, SubmitError::Closed);
    assert_eq!(worker.take(1), Err(TakeError::Ended));
    assert_eq!(worker.look(1), Err(TakeError::Ended));
    drop(lane);
    let still = lanes.finish().unwrap_err();
    assert_eq!((still.out, still.to_string()), (Out::Lane(1), "lane 1 is not back".to_string()));
    drop(other);
    let still = still.owner.finish().unwrap_err();
    assert_eq!((still.out, still.to_string()), (Out::Worker(0), "worker 0 is not back".to_string()));
    assert_eq!(worker.take_any(0).map(|job| job.payload), Ok(73));
    assert_eq!(worker.take_any(0), Err(TakeError::Ended));
    drop(worker);
    assert_eq!(still.owner.finish().unwrap().count(), 0);
}

#[test]
fn each_error_has_a_sentence() {
    use TakeError::*;
    let mut texts: Vec<String> = [BadLane, Empty, Ended, Lost, Asleep].map(|it| it.to_string()).into();
    texts.extend(
        [SubmitError::Full, SubmitError::Closed, SubmitError::Spent, SubmitError::TimedOut]
            .map(|it| it.to_string()),
    );
    texts.extend([OpenError::BadSizes.to_string(), DealError::NoneLeft.to_string()]);
    texts.push(OpenError::OutOfMemory.to_string());
    for (number, text) in texts.iter().enumerate() {
        assert!(!text.is_empty() && !texts[..number].contains(text), "{text}");
    }
    assert_eq!(DealError::OutOfMemory.to_string(), "out of memory");
    let lanes = open(1, 1, 1);
    lanes.close();
    let error: Box<dyn Error> = Box::new(lanes.lane().unwrap().submit(1, 1).unwrap_err());
    assert_eq!(error.to_string(), "the lanes are closed");
}

#[test]
fn handles_can_be_dealt_again() {
    let lanes = open(2, 2, 4);
    let (mut one, two) = (lanes.lane().unwrap(), lanes.lane().unwrap());
    one.submit(7, 0).unwrap();
    drop(one);
    let mut one = lanes.lane().unwrap();
    assert_eq!(one.submit(8, 0).unwrap().seq, 1);
    let (first, mut second) = (lanes.worker().unwrap(), lanes.worker().unwrap());
    assert_eq!((first.number(), second.number()), (0, 1));
    drop(first);
    assert_eq!(lanes.worker().unwrap().number(), 0);
    assert_eq!(second.take(0).unwrap().payload, 7);
    drop((one, two, second));
    assert_eq!(payloads(lanes.finish().unwrap()), [8]);
}

/// Makes random calls beside a plain model.
#[test]
fn one_thread_is_like_lists() {
    let lanes = open(3, 2, 5);
    let mut queues: [VecDeque<u64>; 3] = Default::default();
    let mut lane = [(); 3].map(|()| lanes.lane().unwrap());
    let mut workers = [(); 2].map(|()| lanes.worker().unwrap());
    let (mut state, mut accepted) = (7_u64, 0);
    for _ in 0..20_000 {
        state = state.wrapping_mul(6_364_136_223_846_793_005).wrapping_add(1_442_695_040_888_963_407);
        let (number, worker) = ((state >> 33) as usize % 3, &mut workers[(state >> 40) as usize % 2]);
        if state >> 50 & 1 == 0 {
            let got = lane[number].submit(state, number as u32);
            assert_eq!(got.is_ok(), queues[number].len() < 5);
            if got.is_ok() {
                queues[number].push_back(state);
                accepted += 1;
            }
        } else {
            let got = worker.take(number as u32).map(|job| (job.payload, job.dim));
            let wanted = queues[number].pop_front().map(|it| (it, number as u32));
            assert_eq!(got, wanted.ok_or(TakeError::Empty));
        }
    }
    assert_eq!(lanes.close(), Some(accepted));
    drop((lane, workers));
    let wanted: Vec<u64> = queues.into_iter().flatten().collect();
    assert_eq!(payloads(lanes.finish().unwrap()), wanted);
}

/// A payload that counts its drops.
struct Counted(Arc<AtomicU64>);

impl Drop for Counted {
    fn drop(&mut self) {
        self.0.fetch_add(1, SeqCst);
    }
}

#[test]
fn boxes_are_dropped_once_in_any_order_of_drops() {
    // Each digit is the handle that is dropped next: lanes, lane, worker, and the rest of jobs.
    for order in ["012", "021", "102", "120", "201", "210"] {
        let drops = Arc::new(AtomicU64::new(0));
        let payload = || Box::new(Counted(drops.clone()));
        let lanes = Lanes::new(sizes(1, 1, 3)).unwrap();
        let (mut lane, mut worker) = (lanes.lane().unwrap(), lanes.worker().unwrap());
        (0..3).for_each(|_| assert!(lane.submit(payload(), 0).is_ok()));
        let refused = lane.submit(payload(), 0).unwrap_err();
        assert_eq!((refused.reason, drops.load(SeqCst)), (SubmitError::Full, 0));
        drop(refused);
        drop(worker.take(0).unwrap());
        assert_eq!(drops.load(SeqCst), 2);
        let (mut lanes, mut lane, mut worker) = (Some(lanes), Some(lane), Some(worker));
        for it in order.chars() {
            match it {
                '0' => drop(lanes.take()),
                '1' => drop(lane.take()),
                _ => drop(worker.take()),
            }
            if let (None, Some(lane)) = (&lanes, &mut lane) {
                assert_eq!(lane.submit(payload(), 0).unwrap_err().reason, SubmitError::Closed);
                drops.fetch_sub(1, SeqCst);
            }
        }
        assert_eq!(drops.load(SeqCst), 4, "order {order}");
    }
}

#[test]
fn boxes_that_are_left_come_back() {
    let drops = Arc::new(AtomicU64::new(0));
    let lanes = Lanes::new(sizes(2, 1, 4)).unwrap();
    for _ in 0..2 {
        let mut lane = lanes.lane().unwrap();
        assert!(lane.submit(Box::new(Counted(drops.clone())), 1).is_ok());
    }
    let mut rest = lanes.finish().unwrap();
    let job = rest.next().unwrap();
    assert_eq!((job.lane, job.seq, job.dim, drops.load(SeqCst)), (0, 0, 1, 0));
    drop(rest); // it has one job more
    assert_eq!(drops.load(SeqCst), 1);
    drop(job);
    assert_eq!(drops.load(SeqCst), 2);
}

#[test]
fn a_forgotten_handle_stays_out() {
    let lanes = open(1, 1, 1);
    forget(lanes.worker().unwrap());
    let still = lanes.finish().unwrap_err();
    assert_eq!(still.out, Out::Worker(0));
    // The lanes can be used as before.
    assert_eq!(still.owner.lane().unwrap().submit(1, 1).unwrap_err().reason, SubmitError::Closed);
    assert_eq!(still.owner.finish().unwrap_err().out, Out::Worker(0));
}

#[test]
fn closures_are_jobs() {
    type Call = Box<Box<dyn FnOnce() -> u64 + Send>>;
    let lanes = Lanes::<Call>::new(sizes(1, 1, 2)).unwrap();
    let mut lane = lanes.lane().unwrap();
    let text = "seven".to_string();
    assert!(lane.submit(Box::new(Box::new(move || text.len() as u64)), 0).is_ok());
    let mut worker = lanes.worker().unwrap();
    assert_eq!((worker.take(0).unwrap().payload)(), 5);
}

#[test]
fn a_worker_lies_down_and_gets_up() {
    let lanes = open(2, 2, 4);
    let (mut lane, mut worker) = (lanes.lane().unwrap(), lanes.worker().unwrap());
    assert_eq!(lane.submit(70, 0).unwrap().woken, None);
    assert_eq!(found(&mut worker), Found::Job(worker_job(70, 0)));
    assert_eq!(found(&mut worker), Found::Park);
    assert!(!worker.awake());
    assert_eq!(found(&mut worker), Found::Park);
    assert_eq!(worker.take(0), Err(TakeError::Asleep));
    assert_eq!(worker.take_any(0), Err(TakeError::Asleep));
    assert_eq!(worker.look(0), Err(TakeError::Asleep));
    assert_eq!(lane.submit(71, 0).unwrap().woken, Some(worker.number()));
    assert_eq!(lane.submit(72, 0).unwrap().woken, None); // a worker looks for jobs
    assert!(worker.awake() && worker.awake());
    assert_eq!(found(&mut worker), Found::Job(worker_job(71, 1)));
    assert_eq!(found(&mut worker), Found::Job(worker_job(72, 2)));
    assert_eq!(found(&mut worker), Found::Park);
    lanes.close();
    assert!(worker.awake());
    assert_eq!(found(&mut worker), Found::Ended);
    assert_eq!(worker.take(0), Err(TakeError::Ended));
}

/// Calls until other calls are not in the way.
fn found(worker: &mut Worker<u64>) -> Found<u64> {
    loop {
        match worker.find(0).found {
            Found::Again => {}
            found => return found,
        }
    }
}

fn worker_job(payload: u64, seq: u64) -> cubejobs::lanes::Job<u64> {
    cubejobs::lanes::Job { lane: 0, seq, dim: 0, payload }
}

#[test]
fn a_worker_that_is_dropped_as_it_sleeps_waits() {
    let lanes = open(1, 2, 4);
    let mut lane = lanes.lane().unwrap();
    let mut worker = lanes.worker().unwrap();
    assert_eq!(found(&mut worker), Found::Park);
    drop(worker);
    assert_eq!(lane.submit(70, 0).unwrap().woken, Some(0));
    let mut worker = lanes.worker().unwrap();
    assert_eq!(worker.number(), 0);
    assert!(worker.awake());
    assert_eq!(found(&mut worker), Found::Job(worker_job(70, 0)));
    assert_eq!(found(&mut worker), Found::Park);
    drop(worker);
    lane.submit(71, 5).unwrap();
    lane.submit(72, 6).unwrap();
    drop(lane);
    let left: Vec<_> = lanes.finish().unwrap().map(|job| (job.lane, job.seq, job.dim, job.payload)).collect();
    assert_eq!(left, [(0, 1, 5, 71), (0, 2, 6, 72)]);
}

#[test]
fn a_dropped_owner_gets_sleepers_up() {
    let lanes = open(1, 1, 1);
    let worker = lanes.worker().unwrap();
    let sleeper = thread::spawn(move || worker.into_iter().count());
    thread::sleep(Duration::from_millis(20));
    drop(lanes);
    assert_eq!(sleeper.join().unwrap(), 0);
}

/// Fails the whole program if `progress` rests for a minute: then a wake is lost.
fn watch(progress: Arc<AtomicU64>) {
    thread::spawn(move || loop {
        let before = progress.load(SeqCst);
        thread::sleep(Duration::from_secs(60));
        if progress.load(SeqCst) == before {
            eprintln!("a wake is lost");
            std::process::exit(1);
        }
    });
}

/// Submits boxes, whose memory the worker reads: the lane and the number of the job.
fn produce(mut lane: Lane<Box<(u32, u64)>>, number: u32, pauses: bool) {
    for seq in 0..JOBS {
        let mut payload = Box::new((number, seq));
        while let Err(refused) = lane.submit(payload, number) {
            assert_eq!(refused.reason, SubmitError::Full);
            payload = refused.payload;
            thread::yield_now();
        }
        if pauses && seq % 64 == 0 {
            thread::sleep(Duration::from_micros(200));
        }
    }
}

#[test]
fn each_job_of_many_threads_comes_once_and_in_order() {
    let progress = Arc::new(AtomicU64::new(0));
    watch(progress.clone());
    for pauses in [false, true] {
        let lanes = Lanes::<Box<(u32, u64)>>::new(sizes(THREADS, THREADS, 16)).unwrap();
        let seen: Vec<Vec<AtomicU64>> =
            (0..THREADS).map(|_| (0..JOBS).map(|_| AtomicU64::new(0)).collect()).collect();
        thread::scope(|scope| {
            for worker in (0..THREADS).map(|_| lanes.worker().unwrap()) {
                let (seen, progress) = (&seen, &progress);
                scope.spawn(move || {
                    let mut next = [0; THREADS as usize];
                    for job in worker {
                        assert_eq!(*job.payload, (job.lane, job.seq));
                        assert_eq!(job.dim, job.lane);
                        assert!(job.seq >= next[job.lane as usize], "out of order");
                        next[job.lane as usize] = job.seq + 1;
                        seen[job.lane as usize][job.seq as usize].fetch_add(1, SeqCst);
                        progress.fetch_add(1, SeqCst);
                    }
                });
            }
            let producers: Vec<_> = (0..THREADS)
                .map(|number| {
                    let lane = lanes.lane().unwrap();
                    scope.spawn(move || produce(lane, number, pauses))
                })
                .collect();
            producers.into_iter().for_each(|it| it.join().unwrap());
            assert_eq!(lanes.close(), Some(u64::from(THREADS) * JOBS));
        });
        assert!(seen.iter().flatten().all(|it| it.load(SeqCst) == 1));
        assert_eq!(lanes.finish().unwrap().count(), 0);
    }
}

#[test]
fn a_close_meanwhile_loses_no_job() {
    for round in 0..50 {
        let lanes = open(2, 2, 4);
        let producers: Vec<_> = (0..2).map(|_| lanes.lane().unwrap()).collect();
        let workers: Vec<_> = (0..2).map(|_| lanes.worker().unwrap()).collect();
        let (accepted, taken) = (AtomicU64::new(0), AtomicU64::new(0));
        thread::scope(|scope| {
            for mut lane in producers {
                let accepted = &accepted;
                scope.spawn(move || loop {
                    match lane.submit(1, 0) {
                        Ok(_) => accepted.fetch_add(1, SeqCst),
                        Err(refused) if refused.reason == SubmitError::Closed => return,
                        Err(_) => continue,
                    };
                });
            }
            for worker in workers {
                // One in two rounds, the workers leave before the end.
                let most = if round % 2 == 0 { usize::MAX } else { 20 };
                let taken = &taken;
                scope.spawn(move || taken.fetch_add(worker.into_iter().take(most).count() as u64, SeqCst));
            }
            thread::sleep(Duration::from_micros(100 * round));
            let counted = lanes.close();
            assert!(counted.is_some());
        });
        let left = lanes.finish().unwrap().count() as u64;
        assert_eq!(accepted.load(SeqCst), taken.load(SeqCst) + left);
    }
}

#[test]
fn a_close_lets_each_worker_end() {
    // More workers than jobs race for the last one, beside a close. No loser may sleep then.
    let progress = Arc::new(AtomicU64::new(0));
    watch(progress.clone());
    for round in 0..2_000 {
        let lanes = open(2, 4, 64);
        let mut lane = lanes.lane().unwrap();
        let counts: Vec<_> = (0..4)
            .map(|_| {
                let worker = lanes.worker().unwrap();
                thread::spawn(move || worker.into_iter().count())
            })
            .collect();
        for _ in 0..round % 7 {
            thread::yield_now();
        }
        for payload in 0..6 {
            lane.submit(payload, 0).unwrap();
        }
        lanes.close();
        let taken: usize = counts.into_iter().map(|it| it.join().unwrap()).sum();
        assert_eq!(taken, 6);
        progress.fetch_add(1, SeqCst);
    }
}

#[test]
fn lost_takes_are_no_jobs() {
    // Two workers take from one lane of one job at a time: each job comes to one of them.
    let lanes = open(1, 2, 1);
    let mut lane = lanes.lane().unwrap();
    let workers = [(); 2].map(|()| lanes.worker().unwrap());
    let taken = thread::scope(|scope| {
        let threads = workers.map(|mut worker| {
            scope.spawn(move || {
                let mut taken = 0;
                loop {
                    match worker.take(0) {
                        Ok(_) => taken += 1,
                        Err(TakeError::Ended) => return taken,
                        Err(error) => assert!(matches!(error, TakeError::Empty | TakeError::Lost)),
                    }
                }
            })
        });
        for number in 0..JOBS {
            while lane.submit(number, 0).is_err() {
                thread::yield_now();
            }
        }
        lanes.close();
        threads.map(|it| it.join().unwrap())
    });
    assert_eq!(taken[0] + taken[1], JOBS);
}

#[test]
fn jobs_that_wait_for_each_other_run_together() {
    // Each pair of jobs meets. So one wake is not enough, and no close helps.
    let progress = Arc::new(AtomicU64::new(0));
    watch(progress.clone());
    let lanes = open(1, 2, 2);
    let mut lane = lanes.lane().unwrap();
    let meeting = Barrier::new(3);
    thread::scope(|scope| {
        for worker in [(); 2].map(|()| lanes.worker().unwrap()) {
            let meeting = &meeting;
            scope.spawn(move || {
                for _ in worker {
                    meeting.wait();
                }
            });
        }
        for number in 0..JOBS / 2 {
            for _ in 0..2 {
                while lane.submit(number, 0).is_err() {
                    thread::yield_now();
                }
            }
            meeting.wait();
            progress.fetch_add(1, SeqCst);
            if number % 16 == 0 {
                thread::sleep(Duration::from_micros(300)); // the workers lie down
            }
        }
        lanes.close();
    });
}

#[test]
fn a_worker_goes_round_the_lanes() {
    let lanes = open(3, 1, 4);
    let mut all = [(); 3].map(|()| lanes.lane().unwrap());
    for lane in [0, 0, 0, 1, 2, 2] {
        all[lane].submit(0, 0).unwrap();
    }
    lanes.close();
    let order: Vec<u32> = lanes.worker().unwrap().into_iter().map(|job| job.lane).collect();
    assert_eq!(order, [0, 1, 2, 0, 2, 0]);
}

/// Returns the processor time of this thread, in hundredths of a second.
fn processor_time() -> u64 {
    let stat = std::fs::read_to_string("/proc/thread-self/stat").unwrap();
    // After the name in brackets, the times are the words 12 and 13.
    let words: Vec<&str> = stat.rsplit(')').next().unwrap().split_whitespace().collect();
    words[11..13].iter().map(|it| it.parse::<u64>().unwrap()).sum()
}

#[test]
fn a_worker_that_sleeps_takes_no_processor_time() {
    let lanes = open(1, 1, 1);
    let (mut lane, worker) = (lanes.lane().unwrap(), lanes.worker().unwrap());
    let sleeper = thread::spawn(move || {
        let before = processor_time();
        (worker.into_iter().count(), processor_time() - before)
    });
    lane.submit(0, 0).unwrap();
    thread::sleep(Duration::from_millis(400));
    lanes.close();
    let (jobs, time) = sleeper.join().unwrap();
    assert!(jobs == 1 && time < 20, "{jobs} jobs, {time} hundredths of a second");
}
