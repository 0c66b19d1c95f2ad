//! Random events of planners beside a plain model of their rules: machines of dimension 0 to 8, jobs
//! of all classes and sizes, estimates that are short, huge or not known, blocks that go out of
//! service, jobs that end late, full planners, and calls that are refused.
//!
//! `PLAN_EVENTS` is the number of events, and `PLAN_SEED` where the random numbers begin.

mod plan_model;

use cubejobs::plan::{
    Counts, EndError, Forecast, JobState, OccupyError, Options, Planner, Request, SubmitReason, Ticket,
    TimeError, VacateError, CLASSES,
};
use cubejobs::Region;
use plan_model::{Model, NEVER};
use std::collections::BTreeMap;
use std::env;

/// The events of a run in the gate.
const EVENTS: u64 = 100_000;
/// How many events a planner has, more or less.
const OF_ONE: u64 = 400;
/// A time, or how many there are of some things.
type Number = u64;

/// What was seen in a run, so that a run that shows nothing is noticed.
#[derive(Debug, Default)]
struct Seen {
    starts: Number,
    passes: Number,
    promises: Number,
    unknown_promises: Number,
    late: Number,
    full: Number,
    out: Number,
}

/// A planner and its model.
struct Player {
    state: u64,
    planner: Planner<u64>,
    model: Model,
    /// The tickets of all jobs, also of those that are over.
    tickets: Vec<Ticket>,
    now: u64,
    /// How often a job is submitted, and of how many classes.
    load: (u64, u64),
    seen: Seen,
}

fn known(time: u64) -> Option<u64> {
    (time != NEVER).then_some(time)
}

impl Player {
    fn new(seed: u64) -> Self {
        // A state of 0 would stay 0.
        let state = seed.wrapping_mul(0x9e37_79b9_7f4a_7c15) | 1;
        let (planner, model) = (Planner::new(Options::new(0, 1)).unwrap(), Model::new(0, 1, 16));
        let mut player = Player {
            state,
            planner,
            model,
            tickets: Vec::new(),
            now: 0,
            load: (0, 1),
            seen: Seen::default(),
        };
        player.open();
        player
    }

    fn below(&mut self, most: u64) -> u64 {
        self.state ^= self.state << 13;
        self.state ^= self.state >> 7;
        self.state ^= self.state << 17;
        (self.state >> 11) % most
    }

    fn choose(&mut self, from: &[u64]) -> u64 {
        from[self.below(from.len() as u64) as usize]
    }

    fn open(&mut self) {
        let (dim, patience) = (self.below(9) as u32, self.choose(&[0, 0, 1, 2, 4, 16]));
        let most = if self.below(5) == 0 { self.choose(&[1, 3, 10, 40]) } else { 1000 };
        self.planner = Planner::new(Options::new(dim, most as u32).patience(patience as u32)).unwrap();
        self.model = Model::new(dim, most as usize, patience);
        self.load = (self.choose(&[30, 45, 60]), self.choose(&[1, 2, u64::from(CLASSES)]));
        (self.now, self.tickets) = (0, Vec::new());
    }

    fn event(&mut self) {
        if self.below(OF_ONE) == 0 {
            self.open();
        }
        let what = self.below(100);
        if what < self.load.0 || self.tickets.is_empty() {
            self.submit();
        } else {
            match what - self.load.0 {
                0..=4 => self.end(false),
                5..=11 => self.use_block(),
                _ => self.end(true),
            }
        }
        let more = self.below(300);
        self.now += self.choose(&[0, 0, 1, more % 30, more]);
        if self.below(10) < 7 {
            self.decide();
        }
        match self.below(10) {
            0..=4 => self.look(),
            5..=7 => self.count(),
            8 => self.refuse_time(),
            _ => {}
        }
    }

    fn submit(&mut self) {
        let size = 1 << self.model.dim;
        let (small, large) = (self.choose(&[1, 1, 2, 3, 4]), 1 + self.below(size));
        let processors = if self.below(5) < 2 { large } else { small.min(size) };
        // Some numbers are out of range.
        let processors = if self.below(50) == 0 { size + 1 + small } else { processors } as u32;
        let processors = if self.below(100) == 0 { 0 } else { processors };
        let class = if self.below(100) == 0 { u64::from(CLASSES) } else { self.below(self.load.1) } as u8;
        let (brief, long, huge) = (1 + self.below(20), 1 + self.below(200), NEVER - self.below(3));
        let estimate = self.choose(&[0, brief, long, huge]);
        let request = Request::new(processors).estimate(estimate).class(class);
        let is_right = (1..=size as u32).contains(&processors) && class < CLASSES;
        let reason = match is_right {
            false => Some(SubmitReason::OutOfRange),
            true => (self.model.jobs.len() == self.model.most).then_some(SubmitReason::Full),
        };
        self.seen.full += u64::from(reason == Some(SubmitReason::Full));
        match self.planner.submit(request, self.model.arrivals) {
            Ok(ticket) => {
                assert_eq!(reason, None);
                self.model.submit(processors, estimate, class);
                self.tickets.push(ticket);
            }
            Err(refused) => {
                assert_eq!((Some(refused.reason), refused.into_job()), (reason, self.model.arrivals));
            }
        }
    }

    /// Chooses a job, most often one that runs or that waits.
    fn some_job(&mut self, runs: bool) -> u64 {
        let jobs = self.model.jobs.values().filter(|job| job.block.is_some() == runs);
        let jobs: Vec<u64> = jobs.map(|job| job.arrival).collect();
        match jobs.is_empty() || self.below(20) == 0 {
            true => self.below(self.tickets.len() as u64),
            false => self.choose(&jobs),
        }
    }

    /// Ends a job, by `finish` or by `cancel`.
    fn end(&mut self, runs: bool) {
        let arrival = self.some_job(runs);
        let ticket = self.tickets[arrival as usize];
        let ended = if runs { self.planner.finish(ticket) } else { self.planner.cancel(ticket) };
        let Some(job) = self.model.jobs.get(&arrival) else {
            return assert_eq!(ended, Err(EndError::NoJob));
        };
        if job.block.is_some() != runs {
            return assert_eq!(ended, Err(EndError::WrongState));
        }
        self.seen.late += u64::from(job.end < self.now);
        assert_eq!(ended, Ok(arrival));
        self.model.end(arrival);
    }

    fn use_block(&mut self) {
        let dim = if self.below(5) < 2 { self.below(u64::from(self.model.dim) + 2) as u32 } else { 1 };
        let base = (self.below((1 << self.model.dim) + 2) >> dim << dim) + u64::from(self.below(20) == 0);
        let mut region = Region { base, dim };
        if self.below(2) == 0 {
            if self.below(10) > 0 && !self.model.out.is_empty() {
                let place = self.below(self.model.out.len() as u64);
                region = self.model.out[place as usize];
            }
            let wanted = match self.model.is_block(region) {
                false => Err(VacateError::OutOfRange),
                true => self.model.vacate(region).then_some(()).ok_or(VacateError::NotOccupied),
            };
            assert_eq!(self.planner.vacate(region), wanted, "{region}");
        } else {
            let wanted = match self.model.is_block(region) {
                false => Err(OccupyError::OutOfRange),
                true => self.model.occupy(region).then_some(()).ok_or(OccupyError::InUse),
            };
            self.seen.out += u64::from(wanted.is_ok());
            assert_eq!(self.planner.occupy(region), wanted, "{region}");
        }
    }

    /// Asks for jobs until none starts.
    fn decide(&mut self) {
        loop {
            let wanted = self.model.next(self.now);
            let start = self.planner.next(self.now).unwrap();
            assert_eq!(start.map(|it| it.ticket), wanted.map(|it| self.tickets[it as usize]));
            let (Some(start), Some(arrival)) = (start, wanted) else { break };
            let job = &self.model.jobs[&arrival];
            assert_eq!((Some(start.region()), start.end), (job.block, known(job.end)));
            assert_eq!((start.processors, self.planner.job(start.ticket)), (job.processors, Some(&arrival)));
            self.seen.starts += 1;
            self.seen.passes += u64::from(self.model.reserved.is_some());
        }
    }

    /// Returns what the rules say of a job.
    fn forecast_of(&self, arrival: u64) -> Option<Forecast> {
        let job = self.model.jobs.get(&arrival)?;
        Some(match (job.block, self.model.reserved) {
            (Some(region), _) => Forecast::Runs { region, end: known(job.end) },
            (None, Some((of, region))) if of == arrival => {
                Forecast::Reserved { region, promise: known(self.model.latest(region)) }
            }
            _ => Forecast::Waits { before: self.model.before(arrival) },
        })
    }

    fn look(&mut self) {
        let chosen = if self.tickets.is_empty() { None } else { Some(self.some_job(false)) };
        for arrival in chosen.into_iter().chain(self.model.reserved.map(|it| it.0)) {
            let (ticket, wanted) = (self.tickets[arrival as usize], self.forecast_of(arrival));
            assert_eq!(self.planner.forecast(ticket), wanted);
            assert_eq!(self.planner.job_mut(ticket).copied(), wanted.map(|_| arrival));
            if let Some(Forecast::Reserved { promise, .. }) = wanted {
                self.seen.promises += u64::from(promise.is_some());
                self.seen.unknown_promises += u64::from(promise.is_none());
            }
        }
    }

    fn count(&mut self) {
        let Counts { waiting, running, held, asked, occupied, largest, .. } = self.planner.counts();
        assert_eq!([waiting, running, held, asked, occupied, largest].map(u64::from), self.model.counts());
        let found: BTreeMap<u64, _> =
            self.planner.jobs().map(|(ticket, &job, state)| (job, (ticket, state))).collect();
        assert_eq!(self.planner.jobs().count(), found.len());
        assert!(found.keys().eq(self.model.jobs.keys()));
        for (arrival, (ticket, state)) in found {
            let wanted = match self.model.jobs[&arrival].block {
                Some(_) => JobState::Runs,
                None if self.model.reserved.is_some_and(|it| it.0 == arrival) => JobState::Reserved,
                None => JobState::Waits,
            };
            assert_eq!((ticket, state), (self.tickets[arrival as usize], wanted));
        }
    }

    fn refuse_time(&mut self) {
        assert_eq!(self.planner.next(NEVER), Err(TimeError::OutOfRange));
        if let Some(before) = self.model.now.checked_sub(1 + self.below(3)) {
            assert_eq!(self.planner.next(before), Err(TimeError::Back));
        }
    }
}

#[test]
fn each_answer_is_that_of_the_rules() {
    let number = |name, default| env::var(name).map_or(default, |it| it.parse().expect(name));
    let (events, seed) = (number("PLAN_EVENTS", EVENTS), number("PLAN_SEED", 1));
    let mut player = Player::new(seed);
    for event in 0..events {
        let ended = std::panic::catch_unwind(std::panic::AssertUnwindSafe(|| player.event()));
        assert!(ended.is_ok(), "at event {event} of the seed {seed}");
    }
    let Seen { starts, passes, promises, unknown_promises, late, full, out } = player.seen;
    let counts = [passes, promises, unknown_promises, late, full, out];
    assert!(starts > events / 5 && counts.iter().all(|it| *it > events / 500), "{:?}", player.seen);
}
