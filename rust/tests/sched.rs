//! A scheduler for threads: each call with its errors, drops in any order, and sleep.

use cubejobs::sched::{
    Allocation, CancelError, Counts, Ended, Forecast, NotOut, OccupyError, OpenError, Options, Reason,
    Rejected, Request, Scheduler, Ticket, VacateError, Waiting, Worker, WorkerError, CLASSES, MAX_DIM,
    MAX_JOBS, MAX_WORKERS,
};
use cubejobs::Region;
use limit::limited;
use std::cell::Cell;
use std::error::Error;
use std::mem::forget;
use std::panic::{catch_unwind, AssertUnwindSafe};
use std::sync::atomic::{AtomicU32, Ordering::SeqCst};
use std::sync::{Arc, Mutex};
use std::thread;
use std::time::{Duration, Instant};

mod limit;

/// A time in which other threads go to sleep, most often.
const MOMENT: Duration = Duration::from_millis(30);
/// A time that no test waits for.
const LONG: Duration = Duration::from_secs(600);

fn open<J>(dim: u32, jobs: u32, workers: u32) -> Scheduler<J> {
    Scheduler::new(Options::new(dim, jobs, workers)).unwrap()
}

fn second(count: u64) -> Duration {
    Duration::from_secs(count)
}

/// Returns the numbers of jobs that wait and that run, and of processors that are held and asked for.
fn counted<J>(scheduler: &Scheduler<J>) -> (u32, u32, u32, u32) {
    let Counts { waiting, running, held, asked, .. } = scheduler.counts();
    (waiting, running, held, asked)
}

fn is_send<T: Send>() {}
fn is_sync<T: Sync>() {}

/// A job that counts its drops, and panics in each one if it is asked to.
struct Dropped<'a> {
    drops: &'a AtomicU32,
    panics: bool,
}

impl Drop for Dropped<'_> {
    fn drop(&mut self) {
        self.drops.fetch_add(1, SeqCst);
        if self.panics {
            panic!("the drop of a job");
        }
    }
}

/// Calls a function. Returns whether it panics, and shows nothing of the panic.
fn panics(call: impl FnOnce()) -> bool {
    catch_unwind(AssertUnwindSafe(call)).is_err()
}

/// Starts a call in a thread, has this one wait for a moment, and calls another function. Returns
/// what the first call returns.
fn meanwhile<T: Send>(call: impl FnOnce() -> T + Send, then: impl FnOnce()) -> T {
    thread::scope(|scope| {
        let thread = scope.spawn(call);
        thread::sleep(MOMENT);
        then();
        thread.join().unwrap()
    })
}

#[test]
fn handles_go_to_other_threads() {
    let _limited = limited(60);
    is_send::<Scheduler<Cell<u8>>>();
    is_sync::<Scheduler<Cell<u8>>>();
    is_send::<Worker<Cell<u8>>>();
    is_send::<Allocation<Cell<u8>>>();
    is_send::<Rejected<Cell<u8>>>();
    is_sync::<Ticket>();
}

#[test]
fn refusals_say_why() {
    let _limited = limited(60);
    let new = |dim, jobs, workers| Scheduler::<u64>::new(Options::new(dim, jobs, workers)).err();
    let range = Some(OpenError::OutOfRange);
    assert_eq!([new(MAX_DIM + 1, 1, 1), new(2, 0, 1), new(2, MAX_JOBS + 1, 1)], [range; 3]);
    assert_eq!([new(2, 1, 0), new(2, 1, MAX_WORKERS + 1)], [range; 2]);
    let scheduler = open::<u64>(2, 2, 1);
    let refused = |request| {
        let rejected = scheduler.submit(7, request).unwrap_err();
        (rejected.reason, rejected.job)
    };
    assert_eq!(refused(Request::new(0)), (Reason::OutOfRange, 7));
    assert_eq!(refused(Request::new(5)), (Reason::OutOfRange, 7));
    assert_eq!(refused(Request::new(1).class(CLASSES)), (Reason::OutOfRange, 7));
    let first = scheduler.submit(70, Request::new(4).class(CLASSES - 1)).unwrap();
    let other = scheduler.try_submit(71, Request::new(1)).unwrap();
    assert_ne!(first, other);
    let rejected = scheduler.try_submit(72, Request::new(1)).unwrap_err();
    assert_eq!((rejected.reason, rejected.to_string().is_empty()), (Reason::Full, false));
    assert_eq!(rejected.into_job(), 72);
    let begin = Instant::now();
    let rejected = scheduler.submit_timeout(73, Request::new(1), MOMENT).unwrap_err();
    assert!(rejected.reason == Reason::TimedOut && begin.elapsed() >= MOMENT);
    assert!(scheduler.close(Waiting::Run) && !scheduler.close(Waiting::ComeBack));
    assert_eq!(refused(Request::new(1)), (Reason::Closed, 7));
    assert_eq!(scheduler.options(), Options::new(2, 2, 1).patience(16));
}

#[test]
fn jobs_start_by_the_rules() {
    let _limited = limited(60);
    let scheduler = open(2, 10, 3);
    let begin = Instant::now();
    let submit = |job, processors, seconds| {
        scheduler.submit(job, Request::new(processors).estimate(second(seconds))).unwrap()
    };
    let tickets = [submit("first", 2, 100), submit("whole", 4, 50), submit("brief", 1, 80)];
    let long = submit("long", 1, 200);
    let mut workers = [(); 3].map(|()| scheduler.worker().unwrap());
    assert_eq!(workers.each_ref().map(|it| it.number()), [0, 1, 2]);
    let [one, two, three] = &mut workers;
    let first = one.try_next().unwrap();
    assert_eq!((*first, first.ticket(), first.range()), ("first", tickets[0], 0..2));
    let brief = two.try_next().unwrap();
    assert_eq!((*brief, brief.ticket(), brief.range()), ("brief", tickets[2], 2..3));
    assert_eq!(three.try_next().err(), Some(Ended::NoJob));
    assert_eq!(counted(&scheduler), (2, 2, 3, 3));
    let Some(Forecast::Reserved { region, promise: Some(promise) }) = scheduler.forecast(tickets[1]) else {
        panic!("no block is reserved");
    };
    assert_eq!(region, Region { base: 0, dim: 2 });
    assert!(promise >= begin + second(100) && promise <= Instant::now() + second(100));
    let Some(Forecast::Runs { region, end: Some(end) }) = scheduler.forecast(tickets[0]) else {
        panic!("it does not run");
    };
    assert_eq!((region, end), (Region { base: 0, dim: 1 }, promise));
    assert_eq!(scheduler.forecast(long), Some(Forecast::Waits));
    drop(first);
    assert_eq!(scheduler.forecast(tickets[0]), None);
    // `long` would delay `whole`.
    assert_eq!(one.try_next().err(), Some(Ended::NoJob));
    assert_eq!(brief.into_job(), "brief");
    let whole = one.next().unwrap();
    assert_eq!((*whole.job(), whole.base(), whole.processors()), ("whole", 0, 4));
    drop(whole);
    assert_eq!(three.next().unwrap().into_job(), "long");
    assert_eq!(counted(&scheduler), (0, 0, 0, 0));
}

#[test]
fn a_lower_class_comes_first() {
    let _limited = limited(60);
    let scheduler = open(1, 10, 1);
    for class in [3, 7, 0, 3] {
        scheduler.submit(class, Request::new(2).class(class)).unwrap();
    }
    let mut worker = scheduler.worker().unwrap();
    assert_eq!([(); 4].map(|()| *worker.next().unwrap()), [0, 3, 3, 7]);
}

#[test]
fn a_job_without_an_estimate_has_no_known_end() {
    let _limited = limited(60);
    let scheduler = open(1, 10, 2);
    let ticket = scheduler.submit((), Request::new(1)).unwrap();
    let huge = scheduler.submit((), Request::new(1).estimate(Duration::MAX)).unwrap();
    let (mut one, mut two) = (scheduler.worker().unwrap(), scheduler.worker().unwrap());
    let running = (one.next().unwrap(), two.next().unwrap());
    let region = Region { base: 0, dim: 0 };
    assert_eq!(scheduler.forecast(ticket), Some(Forecast::Runs { region, end: None }));
    assert!(matches!(scheduler.forecast(huge), Some(Forecast::Runs { .. })));
    drop(running);
    let zero = scheduler.submit((), Request::new(1).estimate(Duration::ZERO)).unwrap();
    let running = one.next().unwrap();
    assert!(matches!(scheduler.forecast(zero), Some(Forecast::Runs { end: Some(_), .. })));
    drop(running);
}

#[test]
fn a_waiting_job_is_taken_back() {
    let _limited = limited(60);
    let scheduler = open(1, 3, 1);
    let tickets = ["one", "two", "three"].map(|job| scheduler.submit(job, Request::new(2)).unwrap());
    let mut worker = scheduler.worker().unwrap();
    let running = worker.next().unwrap();
    assert_eq!(scheduler.cancel(tickets[0]), Err(CancelError::Runs));
    assert_eq!(scheduler.cancel(tickets[1]), Ok("two"));
    assert_eq!(scheduler.cancel(tickets[1]), Err(CancelError::NoJob));
    drop(running);
    assert_eq!(scheduler.cancel(tickets[0]), Err(CancelError::NoJob));
    assert_eq!(worker.next().unwrap().into_job(), "three");
}

#[test]
fn a_job_changes_while_it_runs() {
    let _limited = limited(60);
    let scheduler = open(1, 3, 1);
    scheduler.submit(vec![1], Request::new(1)).unwrap();
    let mut worker = scheduler.worker().unwrap();
    let mut running = worker.next().unwrap();
    running.push(2);
    running.job_mut().push(3);
    assert_eq!((running.len(), counted(&scheduler)), (3, (0, 1, 1, 1)));
    assert_eq!((running.into_job(), counted(&scheduler)), (vec![1, 2, 3], (0, 0, 0, 0)));
}

#[test]
fn a_forgotten_job_ends_with_the_next_call() {
    let _limited = limited(60);
    let drops = AtomicU32::new(0);
    let scheduler = open(1, 3, 1);
    for _ in 0..2 {
        let job = Dropped { drops: &drops, panics: false };
        assert!(scheduler.submit(job, Request::new(2)).is_ok());
    }
    let mut worker = scheduler.worker().unwrap();
    forget(worker.next().unwrap());
    assert_eq!(counted(&scheduler), (1, 1, 2, 2));
    forget(worker.try_next().unwrap());
    assert_eq!(counted(&scheduler), (0, 1, 2, 2));
    drop(worker);
    assert_eq!((counted(&scheduler), drops.load(SeqCst)), ((0, 0, 0, 0), 0));
}

#[test]
fn a_forgotten_worker_is_given_back() {
    let _limited = limited(60);
    let scheduler = open(1, 3, 1);
    assert_eq!([scheduler.lost(0), scheduler.lost(99)], [Err(NotOut); 2]);
    scheduler.submit("job", Request::new(2)).unwrap();
    let mut worker = scheduler.worker().unwrap();
    forget(worker.next().unwrap());
    forget(worker);
    assert_eq!(scheduler.worker().err(), Some(WorkerError::NoneLeft));
    assert_eq!(scheduler.lost(0), Ok(None));
    assert_eq!((scheduler.lost(0), counted(&scheduler)), (Err(NotOut), (0, 0, 0, 0)));
    drop(scheduler.worker().unwrap());
    assert_eq!(scheduler.lost(0), Err(NotOut));
    forget(scheduler.worker().unwrap());
    // The drop of the scheduler gives this one back.
}

#[test]
fn a_lost_worker_touches_no_other() {
    let _limited = limited(60);
    let scheduler = open(1, 3, 1);
    for job in ["old", "new"] {
        scheduler.submit(job, Request::new(2)).unwrap();
    }
    let mut lost = scheduler.worker().unwrap();
    let old = lost.next().unwrap();
    assert_eq!(scheduler.lost(0), Ok(None));
    let mut worker = scheduler.worker().unwrap();
    let new = worker.next().unwrap();
    assert_eq!((old.into_job(), lost.number(), counted(&scheduler)), ("old", 0, (0, 1, 2, 2)));
    assert_eq!(lost.next().err(), Some(Ended::Lost));
    assert_eq!(lost.try_next().err(), Some(Ended::Lost));
    drop(lost);
    assert_eq!((*new, counted(&scheduler)), ("new", (0, 1, 2, 2)));
}

#[test]
fn a_worker_that_sleeps_is_lost() {
    let _limited = limited(60);
    let scheduler = open::<u8>(1, 3, 1);
    let sleeps = || scheduler.worker().unwrap().next().err();
    assert_eq!(meanwhile(sleeps, || assert_eq!(scheduler.lost(0), Ok(None))), Some(Ended::Lost));
    assert_eq!(scheduler.worker().unwrap().number(), 0);
}

/// Loses a worker that sleeps right after a job was given to it. Returns whether its thread had not
/// seen the job.
fn loses_a_job_unseen() -> bool {
    let scheduler = open(1, 3, 1);
    thread::scope(|scope| {
        let thread = scope.spawn(|| scheduler.worker().unwrap().next().map(|it| *it));
        thread::sleep(MOMENT);
        scheduler.submit(7, Request::new(2)).unwrap();
        let lost = scheduler.lost(0);
        if lost == Err(NotOut) && !thread.is_finished() {
            // It was no worker yet, or is none any more.
            scheduler.close(Waiting::Run);
        }
        let (got, waits) = (thread.join().unwrap(), scheduler.counts().waiting);
        let is_lost = lost == Ok(Some(7));
        assert!(got == if got.is_ok() { Ok(7) } else { Err(Ended::Lost) });
        assert_eq!(u32::from(got.is_ok()) + u32::from(is_lost) + waits, 1);
        is_lost
    })
}

#[test]
fn a_job_that_a_lost_worker_has_not_seen_is_returned() {
    let _limited = limited(60);
    assert!((0..100).any(|_| loses_a_job_unseen()));
}

#[test]
fn blocks_go_out_of_service() {
    let _limited = limited(60);
    let scheduler = open(2, 8, 2);
    let region = |base, dim| Region { base, dim };
    assert_eq!(scheduler.occupy(region(1, 1)), Err(OccupyError::OutOfRange));
    assert_eq!(scheduler.occupy(region(0, 3)), Err(OccupyError::OutOfRange));
    assert_eq!(scheduler.occupy(region(2, 1)), Ok(()));
    assert_eq!(scheduler.occupy(region(3, 0)), Err(OccupyError::InUse));
    assert_eq!(scheduler.counts().occupied, 2);
    scheduler.submit("pair", Request::new(2)).unwrap();
    let mut worker = scheduler.worker().unwrap();
    let running = worker.next().unwrap();
    assert_eq!(running.range(), 0..2);
    assert_eq!(scheduler.occupy(region(0, 0)), Err(OccupyError::InUse));
    assert_eq!(scheduler.vacate(region(2, 0)), Err(VacateError::NotOccupied));
    assert_eq!(scheduler.vacate(region(2, 2)), Err(VacateError::OutOfRange));
    scheduler.submit("other", Request::new(2)).unwrap();
    let mut other = scheduler.worker().unwrap();
    assert_eq!(other.try_next().err(), Some(Ended::NoJob));
    assert_eq!(scheduler.vacate(region(2, 1)), Ok(()));
    assert_eq!(other.try_next().unwrap().range(), 2..4);
}

#[test]
fn jobs_still_run_after_a_close() {
    let _limited = limited(60);
    let scheduler = open(1, 8, 2);
    for job in 0..3 {
        scheduler.submit(job, Request::new(2)).unwrap();
    }
    let mut worker = scheduler.worker().unwrap();
    let running = worker.next().unwrap();
    assert!(scheduler.close(Waiting::Run));
    drop(running);
    assert_eq!(*worker.next().unwrap(), 1);
    assert_eq!((scheduler.rest(), scheduler.rest()), (Some(2), None));
    assert_eq!(worker.next().err(), Some(Ended::Closed));
    assert_eq!(worker.next_timeout(LONG).err(), Some(Ended::Closed));
}

#[test]
fn jobs_come_back_after_a_close() {
    let _limited = limited(60);
    let scheduler = open(1, 8, 2);
    for job in 0..3 {
        scheduler.submit(job, Request::new(2)).unwrap();
    }
    let mut worker = scheduler.worker().unwrap();
    let running = worker.next().unwrap();
    assert_eq!(scheduler.rest(), None);
    assert!(scheduler.close(Waiting::ComeBack));
    assert_eq!(running.into_job(), 0);
    assert_eq!(worker.next().err(), Some(Ended::Closed));
    let mut rest: Vec<u32> = std::iter::from_fn(|| scheduler.rest()).collect();
    rest.sort_unstable();
    assert_eq!(rest, [1, 2]);
}

#[test]
fn a_worker_sleeps_until_there_is_a_job() {
    let _limited = limited(60);
    let scheduler = Arc::new(open::<&str>(3, 8, 2));
    let shared = scheduler.clone();
    let sleeps = move || shared.worker().unwrap().next().map(|it| (*it, it.range()));
    let got = meanwhile(sleeps, || {
        scheduler.submit("job", Request::new(5)).unwrap();
    });
    assert_eq!(got, Ok(("job", 0..5)));
    let begin = Instant::now();
    let mut worker = scheduler.worker().unwrap();
    assert_eq!(worker.next_timeout(MOMENT).err(), Some(Ended::TimedOut));
    assert!(begin.elapsed() >= MOMENT);
    assert_eq!(worker.next_timeout(Duration::ZERO).err(), Some(Ended::TimedOut));
    let sleeps = || worker.next_timeout(LONG).map(|it| *it);
    let submits = || assert!(scheduler.submit("last", Request::new(1)).is_ok());
    assert_eq!(meanwhile(sleeps, submits), Ok("last"));
    let sleeps = || worker.next_timeout(Duration::MAX).err();
    assert_eq!(meanwhile(sleeps, || assert!(scheduler.close(Waiting::Run))), Some(Ended::Closed));
}

#[test]
fn a_submit_sleeps_until_there_is_a_place() {
    let _limited = limited(60);
    let scheduler = open(1, 1, 1);
    let mut worker = scheduler.worker().unwrap();
    let mut ticket = scheduler.submit(0, Request::new(1)).unwrap();
    // The end of a job, a call for the next one, a cancel, a loss and a close.
    let sleeps = |job| scheduler.submit_timeout(job, Request::new(1), LONG);
    meanwhile(|| sleeps(1).unwrap(), || assert_eq!(worker.next().unwrap().into_job(), 0));
    forget(worker.next().unwrap());
    // The call ends the forgotten job. It may get the one that is submitted then.
    meanwhile(|| sleeps(2).unwrap(), || assert_eq!(*worker.next().unwrap(), 2));
    for job in 3..6 {
        let submitted = meanwhile(
            || sleeps(job),
            || {
                let _ = scheduler.cancel(ticket);
            },
        );
        // The first time there is a place.
        ticket = submitted.unwrap();
    }
    forget(worker.next().unwrap());
    meanwhile(|| sleeps(6).unwrap(), || assert_eq!(scheduler.lost(0), Ok(None)));
    let rejected = meanwhile(|| sleeps(7).unwrap_err(), || assert!(scheduler.close(Waiting::ComeBack)));
    assert_eq!((rejected.reason, rejected.job), (Reason::Closed, 7));
}

/// Opens a scheduler whose jobs wait for a block out of service, and puts the block back once all
/// workers sleep, most often. Returns how many jobs run right after that call.
fn started_by_one_call(workers: u32, pause: Duration) -> u32 {
    let scheduler = open(4, 16, workers);
    let region = Region { base: 0, dim: 4 };
    scheduler.occupy(region).unwrap();
    for job in 0..workers {
        scheduler.submit(job, Request::new(1)).unwrap();
    }
    let running = AtomicU32::new(0);
    thread::scope(|scope| {
        for _ in 0..workers {
            scope.spawn(|| {
                let mut worker = scheduler.worker().unwrap();
                let job = worker.next().unwrap();
                running.fetch_add(1, SeqCst);
                // No job ends before each worker was woken.
                while running.load(SeqCst) <= workers {
                    thread::yield_now();
                }
                drop(job);
                assert_eq!(worker.next().err(), Some(Ended::Closed));
            });
        }
        thread::sleep(pause);
        scheduler.vacate(region).unwrap();
        let started = scheduler.counts().running;
        running.fetch_add(1, SeqCst);
        while running.load(SeqCst) <= workers {
            thread::yield_now();
        }
        scheduler.close(Waiting::Run);
        started
    })
}

#[test]
fn a_call_starts_many_jobs() {
    let _limited = limited(60);
    // A slow machine may need more time until all workers sleep.
    assert!((1..20).any(|times| started_by_one_call(11, MOMENT * times) == 11));
}

#[test]
fn the_end_of_the_last_job_wakes_all_workers() {
    let _limited = limited(60);
    let scheduler = open(2, 16, 6);
    scheduler.submit((), Request::new(4)).unwrap();
    let mut worker = scheduler.worker().unwrap();
    let running = worker.next().unwrap();
    scheduler.close(Waiting::Run);
    thread::scope(|scope| {
        for _ in 0..5 {
            scope.spawn(|| assert_eq!(scheduler.worker().unwrap().next().err(), Some(Ended::Closed)));
        }
        thread::sleep(MOMENT);
        drop(running);
    });
}

#[test]
fn each_job_is_dropped_once() {
    let _limited = limited(60);
    let drops = AtomicU32::new(0);
    let job = || Dropped { drops: &drops, panics: false };
    let scheduler = open(1, 4, 1);
    for _ in 0..4 {
        assert!(scheduler.submit(job(), Request::new(1)).is_ok());
    }
    let rejected = scheduler.try_submit(job(), Request::new(1)).unwrap_err();
    assert_eq!(drops.load(SeqCst), 0);
    drop(rejected);
    assert_eq!(drops.load(SeqCst), 1);
    let mut worker = scheduler.worker().unwrap();
    drop(worker.next().unwrap());
    assert_eq!(drops.load(SeqCst), 2);
    let kept = worker.next().unwrap().into_job();
    drop(worker);
    assert_eq!(drops.load(SeqCst), 2);
    drop(scheduler);
    assert_eq!(drops.load(SeqCst), 4);
    drop(kept);
    assert_eq!(drops.load(SeqCst), 5);
}

#[test]
fn a_drop_that_panics_ends_its_job() {
    let _limited = limited(60);
    let drops = AtomicU32::new(0);
    let scheduler = open(1, 4, 1);
    for panics in [true, false, true, false] {
        assert!(scheduler.submit(Dropped { drops: &drops, panics }, Request::new(2)).is_ok());
    }
    let mut worker = scheduler.worker().unwrap();
    let running = worker.next().unwrap();
    assert!(panics(|| drop(running)));
    assert_eq!((drops.load(SeqCst), counted(&scheduler)), (1, (3, 0, 0, 0)));
    let running = worker.next().unwrap();
    assert_eq!((running.panics, counted(&scheduler)), (false, (2, 1, 2, 2)));
    drop(running);
    drop(worker);
    assert!(panics(|| drop(scheduler)));
    assert_eq!(drops.load(SeqCst), 4);
}

/// A job whose drop looks at its scheduler.
struct Looks<'a>(&'a Mutex<Option<Arc<Scheduler<u32>>>>, &'a AtomicU32);

impl Drop for Looks<'_> {
    fn drop(&mut self) {
        let inner = self.0.lock().unwrap().take();
        self.1.store(inner.map_or(0, |it| it.counts().waiting), SeqCst);
    }
}

#[test]
fn a_job_is_dropped_while_it_has_its_processors() {
    let _limited = limited(60);
    // A drop may also make calls.
    let inner = Arc::new(open(1, 4, 1));
    inner.submit(7, Request::new(1)).unwrap();
    let (place, seen) = (Mutex::new(Some(inner)), AtomicU32::new(0));
    let scheduler = open(1, 4, 1);
    assert!(scheduler.submit(Looks(&place, &seen), Request::new(1)).is_ok());
    drop(scheduler.worker().unwrap().next().unwrap());
    assert_eq!(seen.load(SeqCst), 1);
}

#[test]
fn a_hook_is_called_for_each_change() {
    let _limited = limited(60);
    let (calls, mut scheduler) = (Arc::new(AtomicU32::new(0)), open(1, 2, 1));
    let counter = calls.clone();
    scheduler.on_ready(move || {
        counter.fetch_add(1, SeqCst);
    });
    let called = || calls.swap(0, SeqCst);
    let mut worker = scheduler.worker().unwrap();
    assert!(worker.try_next().is_err() && scheduler.try_submit(0, Request::new(9)).is_err());
    assert_eq!(called(), 0);
    let ticket = scheduler.submit(0, Request::new(1)).unwrap();
    assert_eq!(called(), 1);
    scheduler.cancel(ticket).unwrap();
    assert_eq!(called(), 1);
    scheduler.submit(0, Request::new(1)).unwrap();
    drop(worker.try_next().unwrap());
    assert_eq!(called(), 2);
    // A job that has ended does not end again.
    assert!(worker.try_next().is_err());
    assert_eq!(called(), 0);
    let region = Region { base: 0, dim: 1 };
    scheduler.occupy(region).unwrap();
    called();
    scheduler.vacate(region).unwrap();
    assert_eq!(called(), 1);
    scheduler.close(Waiting::Run);
    assert_eq!(called(), 1);
}

#[test]
fn a_hook_may_make_calls() {
    let _limited = limited(60);
    let (place, got) = (Arc::new(Mutex::new(None::<Arc<Scheduler<u32>>>)), Arc::new(AtomicU32::new(0)));
    let (its_place, its_got) = (place.clone(), got.clone());
    let mut scheduler = open(1, 2, 1);
    scheduler.on_ready(move || {
        // The end of the job calls the hook again, which finds nothing.
        let Some(scheduler) = its_place.lock().unwrap().take() else { return };
        let mut worker = scheduler.worker().unwrap();
        its_got.store(worker.try_next().unwrap().into_job(), SeqCst);
    });
    let scheduler = Arc::new(scheduler);
    *place.lock().unwrap() = Some(scheduler.clone());
    scheduler.submit(7, Request::new(1)).unwrap();
    assert_eq!((got.load(SeqCst), counted(&scheduler)), (7, (0, 0, 0, 0)));
}

#[test]
fn each_error_has_a_sentence() {
    let _limited = limited(60);
    let mut texts: Vec<String> =
        [OpenError::OutOfRange, OpenError::OutOfMemory].map(|it| it.to_string()).into();
    let reasons = [Reason::OutOfRange, Reason::Closed, Reason::Full, Reason::TimedOut];
    texts.extend(reasons.map(|it| it.to_string()));
    texts.extend([Ended::Closed, Ended::NoJob, Ended::TimedOut, Ended::Lost].map(|it| it.to_string()));
    texts.extend([CancelError::NoJob, CancelError::Runs].map(|it| it.to_string()));
    texts.extend([OccupyError::OutOfRange, OccupyError::InUse].map(|it| it.to_string()));
    texts.extend([
        VacateError::NotOccupied.to_string(),
        WorkerError::NoneLeft.to_string(),
        NotOut.to_string(),
    ]);
    for (number, text) in texts.iter().enumerate() {
        assert!(!text.is_empty() && !texts[..number].contains(text), "{text}");
    }
    assert!(Ended::Closed.source().is_none());
    let scheduler = open::<u8>(1, 2, 1);
    assert!(format!("{scheduler:?}").contains("waiting: 0"));
    assert_eq!(format!("{:?}", scheduler.worker().unwrap()), "Worker { number: 0, .. }");
}
