//! The planner, call by call. The expected values follow from the rules of `include/cubejobs_plan.h`.

use cubejobs::plan::{
    Counts, EndError, Forecast, JobState, OccupyError, OpenError, Options, Planner, Request, Start,
    SubmitReason, Ticket, TimeError, VacateError, CLASSES, MAX_DIM, MAX_JOBS,
};
use cubejobs::Region;
use std::cell::Cell;
use std::collections::HashSet;
use std::error::Error;
use std::panic::{catch_unwind, AssertUnwindSafe};
use std::thread;

fn opened<J>(dim: u32, jobs: u32) -> Planner<J> {
    Planner::new(Options::new(dim, jobs)).unwrap()
}

/// Submits a job that must be accepted.
fn submit<J>(planner: &mut Planner<J>, request: Request, job: J) -> Ticket {
    planner.submit(request, job).unwrap()
}

/// Returns the jobs that start at a time.
fn starts<J>(planner: &mut Planner<J>, now: u64) -> Vec<Start> {
    std::iter::from_fn(|| planner.next(now).unwrap()).collect()
}

/// Returns the tickets of the jobs that start at a time.
fn started<J>(planner: &mut Planner<J>, now: u64) -> Vec<Ticket> {
    starts(planner, now).iter().map(|it| it.ticket).collect()
}

fn block(base: u64, dim: u32) -> Region {
    Region { base, dim }
}

/// Returns waiting, running, held, asked, occupied, largest.
fn counts<J>(planner: &Planner<J>) -> [u32; 6] {
    let Counts { waiting, running, held, asked, occupied, largest, .. } = planner.counts();
    [waiting, running, held, asked, occupied, largest]
}

#[test]
fn options_are_in_range() {
    let refused = |options| Planner::<()>::new(options).err();
    assert_eq!(refused(Options::new(MAX_DIM + 1, 1)), Some(OpenError::OutOfRange));
    assert_eq!(refused(Options::new(u32::MAX, 1)), Some(OpenError::OutOfRange));
    assert_eq!(refused(Options::new(0, 0)), Some(OpenError::OutOfRange));
    assert_eq!(refused(Options::new(0, MAX_JOBS + 1)), Some(OpenError::OutOfRange));
    assert_eq!((MAX_DIM, MAX_JOBS, CLASSES), (20, 1 << 24, 8));
    let largest = Planner::<()>::new(Options::new(MAX_DIM, 1).patience(u32::MAX)).unwrap();
    assert_eq!(largest.counts().largest, 1 << 20);
    let Options { dim, jobs, patience, .. } = largest.options();
    assert_eq!((dim, jobs, patience), (20, 1, u32::MAX));
    assert_eq!(Options::new(3, 4).patience, 16);
}

#[test]
fn jobs_start_in_the_order_of_class_and_arrival() {
    let mut planner = opened(0, 10);
    for (class, name) in [(3, "d"), (1, "b"), (7, "e"), (1, "c"), (0, "a")] {
        submit(&mut planner, Request::new(1).class(class), name);
    }
    assert_eq!(counts(&planner), [5, 0, 0, 0, 0, 1]);
    let mut order = Vec::new();
    while let [start] = starts(&mut planner, 0)[..] {
        assert_eq!((start.base, start.dim, start.processors, start.end), (0, 0, 1, None));
        assert_eq!(counts(&planner), [4 - order.len() as u32, 1, 1, 1, 0, 0]);
        order.push(planner.finish(start.ticket).unwrap());
    }
    assert_eq!(order, ["a", "b", "c", "d", "e"]);
}

#[test]
fn a_job_has_a_block_of_its_size() {
    let mut planner = opened(3, 10);
    let five = submit(&mut planner, Request::new(5).estimate(9), 5);
    let [start] = starts(&mut planner, 3)[..] else { panic!("one job starts") };
    assert_eq!((start.ticket, start.processors, start.dim, start.end), (five, 5, 3, Some(12)));
    assert_eq!((start.region(), start.range()), (block(0, 3), 0..5));
    // No other job gets the rest of the block.
    assert_eq!(counts(&planner), [0, 1, 8, 5, 0, 0]);
    submit(&mut planner, Request::new(1), 1);
    assert_eq!(starts(&mut planner, 3), []);
    assert_eq!(planner.finish(five), Ok(5));
    assert_eq!(starts(&mut planner, 3).len(), 1);
}

#[test]
fn blocks_are_aligned_and_apart() {
    let mut planner = opened(4, 10);
    for processors in [4, 1, 2, 8] {
        submit(&mut planner, Request::new(processors), processors);
    }
    let found = starts(&mut planner, 0);
    for (place, start) in found.iter().enumerate() {
        let region = start.region();
        assert_eq!(region.base % region.len(), 0);
        assert_eq!(planner.job(start.ticket), Some(&start.processors));
        assert!(found[..place].iter().all(|it| !it.region().overlaps(region)));
    }
    // 4 + 1 + 2 processors leave room for one more block of 8.
    assert_eq!((found.len(), counts(&planner)), (4, [0, 4, 15, 15, 0, 1]));
}

#[test]
fn a_short_job_passes_the_first_one() {
    let mut planner = opened(2, 10);
    let half = submit(&mut planner, Request::new(2).estimate(10), "half");
    let whole = submit(&mut planner, Request::new(4).estimate(5), "whole");
    let long = submit(&mut planner, Request::new(1).estimate(11), "long");
    let unknown = submit(&mut planner, Request::new(1), "unknown");
    let short = submit(&mut planner, Request::new(2).estimate(10), "short");
    assert_eq!(planner.forecast(short), Some(Forecast::Waits { before: 4 }));
    assert_eq!(started(&mut planner, 0), [half, short]);
    let promised = |promise| Some(Forecast::Reserved { region: block(0, 2), promise });
    assert_eq!(planner.forecast(whole), promised(Some(10)));
    assert_eq!(planner.forecast(long), Some(Forecast::Waits { before: 1 }));
    assert_eq!(planner.forecast(unknown), Some(Forecast::Waits { before: 2 }));
    assert!(matches!(planner.forecast(half), Some(Forecast::Runs { end: Some(10), .. })));
    // Half of the machine is free, and neither `long` nor `unknown` ends by 10.
    assert_eq!(planner.finish(half), Ok("half"));
    assert_eq!(started(&mut planner, 1), []);
    assert_eq!(planner.forecast(whole), promised(Some(10)));
    // `short` ends late. Its end is the promise still.
    assert_eq!(started(&mut planner, 12), []);
    assert_eq!(planner.forecast(whole), promised(Some(10)));
    assert_eq!(planner.finish(short), Ok("short"));
    assert_eq!(planner.forecast(whole), promised(Some(0)));
    assert_eq!(started(&mut planner, 12), [whole]);
    assert_eq!(planner.forecast(whole), Some(Forecast::Runs { region: block(0, 2), end: Some(17) }));
    assert_eq!(planner.finish(whole), Ok("whole"));
    assert_eq!(started(&mut planner, 12), [long, unknown]);
}

#[test]
fn a_block_without_a_known_end_is_reserved_after_the_patience() {
    let mut planner = Planner::new(Options::new(1, 10).patience(1)).unwrap();
    let endless = submit(&mut planner, Request::new(1), 0);
    let whole = submit(&mut planner, Request::new(2), 1);
    assert_eq!(started(&mut planner, 0), [endless]);
    // Twice one processor is once the machine.
    for _ in 0..2 {
        let passing = submit(&mut planner, Request::new(1), 2);
        assert_eq!(planner.next(0).unwrap().map(|it| it.ticket), Some(passing));
        assert_eq!(planner.forecast(whole), Some(Forecast::Waits { before: 0 }));
        assert_eq!(planner.finish(passing), Ok(2));
    }
    let refused = submit(&mut planner, Request::new(1).estimate(1), 3);
    assert_eq!(started(&mut planner, 0), []);
    let reserved = Forecast::Reserved { region: block(0, 1), promise: None };
    assert_eq!(planner.forecast(whole), Some(reserved));
    assert_eq!(planner.forecast(refused), Some(Forecast::Waits { before: 1 }));
    assert_eq!(planner.finish(endless), Ok(0));
    assert_eq!(started(&mut planner, 0), [whole]);
}

#[test]
fn a_time_is_known_or_not() {
    let mut planner = opened(1, 10);
    for estimate in [u64::MAX - 6, u64::MAX - 5] {
        submit(&mut planner, Request::new(1).estimate(estimate), ());
    }
    let ends: Vec<_> = starts(&mut planner, 5).iter().map(|it| it.end).collect();
    assert_eq!(ends, [Some(u64::MAX - 1), None]);
}

#[test]
fn time_never_goes_back() {
    let mut planner = opened(0, 10);
    assert_eq!(planner.next(5), Ok(None));
    submit(&mut planner, Request::new(1), ());
    assert_eq!(planner.next(4), Err(TimeError::Back));
    assert_eq!(planner.next(0), Err(TimeError::Back));
    assert_eq!(planner.next(u64::MAX), Err(TimeError::OutOfRange));
    assert_eq!(counts(&planner), [1, 0, 0, 0, 0, 1]);
    assert_eq!(starts(&mut planner, 5).len(), 1);
    assert_eq!(planner.next(u64::MAX - 1), Ok(None));
    assert_eq!(planner.next(u64::MAX - 2), Err(TimeError::Back));
}

#[test]
fn a_refused_submit_returns_the_job() {
    let mut planner = opened(2, 2);
    let mut refused = |request| {
        let error = planner.submit(request, "job".to_string()).unwrap_err();
        assert_eq!(error.into_job(), "job");
        planner.submit(request, String::new()).unwrap_err().reason
    };
    assert_eq!(refused(Request::new(0)), SubmitReason::OutOfRange);
    assert_eq!(refused(Request::new(5)), SubmitReason::OutOfRange);
    assert_eq!(refused(Request::new(u32::MAX)), SubmitReason::OutOfRange);
    assert_eq!(refused(Request::new(1).class(CLASSES)), SubmitReason::OutOfRange);
    assert_eq!(refused(Request::new(1).class(255)), SubmitReason::OutOfRange);
    submit(&mut planner, Request::new(4).class(7), String::new());
    let waiting = submit(&mut planner, Request::new(4), String::new());
    // A job that is out of range is refused for that, also where the planner is full.
    for (processors, reason) in [(1, SubmitReason::Full), (5, SubmitReason::OutOfRange)] {
        assert_eq!(planner.submit(Request::new(processors), String::new()).unwrap_err().reason, reason);
    }
    planner.cancel(waiting).unwrap();
    submit(&mut planner, Request::new(1), String::new());
}

#[test]
fn an_end_is_refused_in_the_wrong_state() {
    let mut planner = opened(0, 10);
    let (one, two) = (submit(&mut planner, Request::new(1), 1), submit(&mut planner, Request::new(1), 2));
    assert_eq!(started(&mut planner, 0), [one]);
    assert_eq!(planner.cancel(one), Err(EndError::WrongState));
    assert_eq!(planner.finish(two), Err(EndError::WrongState));
    assert_eq!((planner.job(one), planner.job(two)), (Some(&1), Some(&2)));
    assert_eq!((planner.finish(one), planner.cancel(two)), (Ok(1), Ok(2)));
    for over in [one, two] {
        assert_eq!(planner.cancel(over), Err(EndError::NoJob));
        assert_eq!(planner.finish(over), Err(EndError::NoJob));
        assert_eq!((planner.forecast(over), planner.job(over)), (None, None));
        assert_eq!(planner.job_mut(over), None);
    }
    assert_eq!(counts(&planner), [0, 0, 0, 0, 0, 1]);
}

#[test]
fn no_ticket_names_two_jobs() {
    let (mut planner, mut seen) = (opened(1, 3), HashSet::new());
    let kept = submit(&mut planner, Request::new(2), 0);
    for number in 1..1000 {
        let ticket = submit(&mut planner, Request::new(1), number);
        assert!(seen.insert(ticket) && ticket != kept);
        assert_eq!(planner.cancel(ticket), Ok(number));
        assert!(seen.iter().all(|&it| planner.job(it).is_none()));
    }
    assert_eq!(planner.job(kept), Some(&0));
}

#[test]
fn a_ticket_of_another_planner_does_no_harm() {
    let (mut one, mut other) = (opened(1, 3), opened(1, 100));
    let strange: Vec<_> = (0..100).map(|it| submit(&mut other, Request::new(1), it)).collect();
    let own = submit(&mut one, Request::new(1), 70);
    let mut count = 0;
    for ticket in strange {
        assert!(matches!(one.job(ticket), None | Some(&70)));
        assert_eq!(one.forecast(ticket).is_some(), one.job_mut(ticket).is_some());
        assert!(matches!(one.finish(ticket), Err(EndError::NoJob | EndError::WrongState)));
        count += usize::from(one.cancel(ticket) == Ok(70));
    }
    assert_eq!(count, usize::from(one.job(own).is_none()));
}

#[test]
fn a_job_can_be_changed() {
    let mut planner = opened(0, 2);
    let ticket = submit(&mut planner, Request::new(1), String::from("job"));
    planner.job_mut(ticket).unwrap().push_str(" 1");
    assert_eq!(planner.job(ticket).map(String::as_str), Some("job 1"));
    assert_eq!(planner.cancel(ticket).unwrap(), "job 1");
}

#[test]
fn an_occupied_block_is_of_no_job() {
    let mut planner = opened(2, 10);
    assert_eq!(planner.occupy(block(0, 1)), Ok(()));
    assert_eq!(counts(&planner), [0, 0, 0, 0, 2, 2]);
    // The first job has no block in service, so others need not wait for it.
    let whole = submit(&mut planner, Request::new(4), "whole");
    let half = submit(&mut planner, Request::new(2).estimate(10), "half");
    let [start] = starts(&mut planner, 0)[..] else { panic!("one job starts") };
    assert_eq!((start.ticket, start.region()), (half, block(2, 1)));
    assert_eq!(planner.vacate(block(0, 1)), Ok(()));
    let one = submit(&mut planner, Request::new(1).estimate(11), "one");
    assert_eq!(started(&mut planner, 0), []);
    let reserved = Forecast::Reserved { region: block(0, 2), promise: Some(10) };
    assert_eq!(planner.forecast(whole), Some(reserved));
    // A reservation ends when a part of its block goes out of service. Then others need not wait.
    assert_eq!(planner.occupy(block(0, 0)), Ok(()));
    assert_eq!(planner.forecast(whole), Some(Forecast::Waits { before: 0 }));
    let [start] = starts(&mut planner, 0)[..] else { panic!("one job starts") };
    assert_eq!((start.ticket, start.region()), (one, block(1, 0)));
    assert_eq!(counts(&planner), [1, 2, 3, 3, 1, 0]);
}

#[test]
fn blocks_are_refused() {
    let mut planner = opened(3, 10);
    for region in [block(0, 4), block(1, 1), block(8, 0), block(8, 3), block(u64::MAX, 0), block(0, u32::MAX)]
    {
        assert_eq!(planner.occupy(region), Err(OccupyError::OutOfRange), "{region}");
        assert_eq!(planner.vacate(region), Err(VacateError::OutOfRange), "{region}");
    }
    assert_eq!(planner.vacate(block(4, 2)), Err(VacateError::NotOccupied));
    assert_eq!(planner.occupy(block(4, 2)), Ok(()));
    for region in [block(4, 2), block(4, 1), block(7, 0), block(0, 3)] {
        assert_eq!(planner.occupy(region), Err(OccupyError::InUse), "{region}");
    }
    for region in [block(4, 1), block(6, 1), block(0, 3), block(0, 2)] {
        assert_eq!(planner.vacate(region), Err(VacateError::NotOccupied), "{region}");
    }
    submit(&mut planner, Request::new(4), ());
    let [start] = starts(&mut planner, 0)[..] else { panic!("one job starts") };
    assert_eq!(start.region(), block(0, 2));
    for region in [block(0, 2), block(2, 1), block(3, 0)] {
        assert_eq!(planner.occupy(region), Err(OccupyError::InUse), "{region}");
        assert_eq!(planner.vacate(region), Err(VacateError::NotOccupied), "{region}");
    }
    assert_eq!(planner.vacate(block(4, 2)), Ok(()));
    assert_eq!(counts(&planner), [0, 1, 4, 4, 0, 4]);
}

#[test]
fn all_jobs_are_met_once() {
    let mut planner = opened(1, 100);
    assert_eq!(planner.jobs().next(), None);
    let tickets: Vec<_> = (0..50).map(|it| submit(&mut planner, Request::new(2).estimate(7), it)).collect();
    assert_eq!(started(&mut planner, 0), [tickets[0]]);
    for &ticket in &tickets[10..20] {
        planner.cancel(ticket).unwrap();
    }
    let mut jobs = planner.jobs();
    let mut found: Vec<_> = jobs.by_ref().collect();
    assert_eq!((jobs.next(), jobs.clone().next()), (None, None));
    found.sort_by_key(|it| it.1);
    let numbers: Vec<usize> = (0..10).chain(20..50).collect();
    let state = |number| match number {
        0 => JobState::Runs,
        1 => JobState::Reserved,
        _ => JobState::Waits,
    };
    let wanted: Vec<_> = numbers.iter().map(|it| (tickets[*it], it, state(*it))).collect();
    assert_eq!(found, wanted);
}

/// A job that counts its drops, and panics in one of them.
struct Dropped<'a> {
    count: &'a Cell<u32>,
    panics: bool,
}

impl Drop for Dropped<'_> {
    fn drop(&mut self) {
        self.count.set(self.count.get() + 1);
        assert!(!self.panics, "a drop panics");
    }
}

/// Returns a planner of 4 jobs, of which the last one has been finished and another one cancelled.
fn with_four(count: &Cell<u32>) -> Planner<Dropped<'_>> {
    let mut planner = opened(1, 4);
    let tickets =
        [0, 1, 2, 3].map(|_| submit(&mut planner, Request::new(1), Dropped { count, panics: false }));
    assert_eq!(started(&mut planner, 0), tickets[..2]);
    drop(planner.finish(tickets[0]).unwrap());
    drop(planner.cancel(tickets[3]).unwrap());
    assert_eq!(count.get(), 2);
    planner
}

#[test]
fn each_job_is_dropped_once() {
    let count = Cell::new(0);
    let mut planner = with_four(&count);
    let refused = planner.submit(Request::new(3), Dropped { count: &count, panics: false });
    assert_eq!(count.get(), 2);
    drop(refused);
    assert_eq!(count.get(), 3);
    submit(&mut planner, Request::new(1), Dropped { count: &count, panics: false });
    drop(planner);
    assert_eq!(count.get(), 6);
}

#[test]
fn a_drop_that_panics_loses_no_job() {
    for panics in 0..3 {
        let count = Cell::new(0);
        let mut planner = with_four(&count);
        // Two jobs are left, and two more are submitted, of which one may panic.
        for place in 0..2 {
            submit(&mut planner, Request::new(1), Dropped { count: &count, panics: place == panics });
        }
        let dropped = catch_unwind(AssertUnwindSafe(|| drop(planner)));
        assert_eq!((dropped.is_err(), count.get()), (panics < 2, 6));
    }
}

#[test]
fn a_planner_goes_to_another_thread() {
    let mut planner = opened(0, 2);
    let ticket = submit(&mut planner, Request::new(1), vec![70]);
    let mut planner = thread::spawn(move || {
        assert_eq!(started(&mut planner, 0), [ticket]);
        planner.job_mut(ticket).unwrap().push(71);
        planner
    })
    .join()
    .unwrap();
    assert_eq!(planner.finish(ticket), Ok(vec![70, 71]));
}

#[test]
fn everything_can_be_shown() {
    let mut planner = opened(0, 1);
    let ticket = submit(&mut planner, Request::new(1), Cell::new(0));
    assert!(format!("{planner:?}").contains("waiting: 1"), "{planner:?}");
    assert!(format!("{:?}", planner.jobs()).starts_with("Jobs"));
    assert!(format!("{ticket:?} {:?}", planner.forecast(ticket)).contains("Waits { before: 0 }"));
    let refused = planner.submit(Request::new(2), Cell::new(0)).unwrap_err();
    assert!(format!("{refused:?}").contains("OutOfRange"));
    let errors: [&dyn Error; 5] =
        [&refused, &OpenError::OutOfMemory, &TimeError::Back, &EndError::NoJob, &OccupyError::InUse];
    assert!(errors.iter().all(|it| !it.to_string().is_empty()));
}
