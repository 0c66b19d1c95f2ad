//! Random programs of jobs that wait for each other, against a result that is computed. Each runs
//! in a process of its own, which has a limit of time.
//!
//! The measure is a backend that gives each job a thread of its own: what ends there ends in a
//! pool.
//!
//! | Variable | Meaning |
//! |---|---|
//! | `POOL_GRAPHS` | how many programs run; 200 without it |
//! | `POOL_GRAPHS_FROM` | the seed of the first one |
//! | `POOL_GRAPH` | the only seed, in this process: `one_graph` runs it |

mod common;

use common::{limited, wait_for_threads, Numbers};
use cubejobs_pool::{Group, Pool, Refused, Scope, ScopeTicket, Ticket};
use std::any::Any;
use std::env;
use std::panic::{catch_unwind, resume_unwind, AssertUnwindSafe};
use std::process::Command;
use std::sync::atomic::{AtomicU64, AtomicUsize, Ordering::SeqCst};
use std::sync::{Arc, Barrier, Mutex, MutexGuard, PoisonError};
use std::thread;
use std::time::Duration;

// ---------------------------------------------------------------------------------------------
// Programs.

/// The most jobs of a program, except chains.
const MOST_JOBS: u64 = 300;

/// The number of locks. A lock with a smaller number is taken first.
const LOCKS: usize = 4;

/// The way by which a job is spawned.
#[derive(Clone, Copy, Debug)]
enum Way {
    Plain,
    Client,
    Try,
}

/// The way by which a gang is submitted.
#[derive(Clone, Copy, Debug, PartialEq, Eq)]
enum GangWay {
    Run,
    Submit,
    InScope,
}

/// A job of a scope, and those that it spawns into the same scope after its own work.
#[derive(Debug)]
struct Inner {
    job: usize,
    /// Whether the owner joins the ticket, before it waits for the scope.
    is_joined: bool,
    inner: Vec<Inner>,
}

#[derive(Debug)]
enum Op {
    Spawn {
        job: usize,
        pool: usize,
        way: Way,
    },
    Detach {
        job: usize,
        pool: usize,
    },
    /// Takes the ticket of this job out of the table, and joins it.
    Join(usize),
    Scope {
        pool: usize,
        jobs: Vec<Inner>,
    },
    Gang {
        job: usize,
        pool: usize,
        way: GangWay,
    },
    Lock {
        lock: usize,
        ops: Vec<Op>,
    },
    Sleep(u64),
}

/// What the members of a gang do: each adds up, and some spawn jobs.
#[derive(Debug)]
struct Members {
    dim: u32,
    /// The rank, the job and its pool.
    spawns: Vec<(usize, usize, usize)>,
}

#[derive(Debug)]
struct Job {
    constant: u64,
    ops: Vec<Op>,
    gang: Option<Members>,
    /// Whether it panics after its last operation.
    panics: bool,
    is_detached: bool,
    pool: usize,
    /// The least lock that it takes, or that a job takes for which it waits.
    least_lock: usize,
    /// Whether its end depends on a gang.
    needs_gang: bool,
    /// The tickets that are in the table when it ends.
    known: Vec<usize>,
}

/// What ends the pools.
#[derive(Clone, Copy, Debug, PartialEq, Eq)]
enum End {
    /// The main thread, after all tickets.
    Last,
    /// The job that drops the last share.
    ByJob,
    /// The main thread, while jobs wait. No job spawns another one.
    Meanwhile,
}

#[derive(Debug)]
struct Sizes {
    dims: Vec<u32>,
    capacity: u64,
    lanes: u32,
    spares: usize,
    end: End,
    /// Whether the main thread makes the operations of job 0, and not a worker.
    is_outside: bool,
}

struct Program {
    sizes: Sizes,
    /// The first is the root.
    jobs: Vec<Job>,
}

// ---------------------------------------------------------------------------------------------
// The generator.

/// What a job may do where its next operation is made.
#[derive(Clone)]
struct View {
    /// The tickets that are in the table for certain. They were put there before the job began, by
    /// the job, or by jobs that it has joined.
    known: Vec<usize>,
    /// The least lock that it may take or wait for.
    floor: usize,
    may_lock: bool,
    may_need_gang: bool,
    depth: usize,
}

impl View {
    /// Returns whether this job may be waited for.
    fn allows(&self, job: &Job) -> bool {
        job.least_lock >= self.floor && (self.may_need_gang || !job.needs_gang)
    }
}

/// Returns the view of a job for which no holder of a lock waits.
fn free(view: &View) -> View {
    View { floor: 0, may_lock: true, may_need_gang: true, ..view.clone() }
}

struct Maker {
    numbers: Numbers,
    sizes: Sizes,
    jobs: Vec<Job>,
    /// Which tickets have their joiner.
    taken: Vec<bool>,
}

impl Maker {
    fn chance(&mut self, one_in: u64) -> bool {
        self.numbers.below(one_in) == 0
    }

    fn pool(&mut self) -> usize {
        self.numbers.below(self.sizes.dims.len() as u64) as usize
    }

    fn has_room(&self, view: &View) -> bool {
        (self.jobs.len() as u64) < MOST_JOBS && view.depth < 14
    }

    fn add(&mut self, pool: usize, gang: Option<Members>) -> usize {
        let (constant, panics) = (self.numbers.below(1 << 40), self.chance(12));
        let needs_gang = gang.is_some();
        self.jobs.push(Job {
            constant,
            ops: Vec::new(),
            gang,
            panics,
            is_detached: false,
            pool,
            least_lock: usize::MAX,
            needs_gang,
            known: Vec::new(),
        });
        self.taken.push(false);
        self.jobs.len() - 1
    }

    /// Makes a job, and returns its number.
    fn job(&mut self, view: &View, pool: usize) -> usize {
        let job = self.add(pool, None);
        let mut view = View { depth: view.depth + 1, ..view.clone() };
        let count = self.numbers.below(7);
        let ops = self.ops(&mut view, job, count);
        self.jobs[job].ops = ops;
        self.jobs[job].known = view.known;
        job
    }

    /// Makes this number of operations of a job.
    fn ops(&mut self, view: &mut View, of: usize, count: u64) -> Vec<Op> {
        let ops = (0..count).filter_map(|_| match self.numbers.below(18) {
            0..=4 if self.has_room(view) => Some(self.spawn(view)),
            5 if self.has_room(view) => Some(self.detach(view)),
            6..=9 => self.join(view, of),
            10..=11 if self.has_room(view) => Some(self.scope(view, of)),
            12..=13 if self.has_room(view) && view.may_need_gang => Some(self.gang(view, of)),
            14..=16 if view.may_lock && view.floor < LOCKS => Some(self.lock(view, of)),
            17 => Some(Op::Sleep(self.numbers.below(300))),
            _ => None,
        });
        ops.collect()
    }

    /// Returns the view of a job that is spawned. Often it may be joined under the same locks.
    fn view_of_child(&mut self, view: &View) -> View {
        let is_free = self.chance(3);
        if is_free {
            return free(view);
        }
        View { may_lock: true, ..view.clone() }
    }

    fn spawn(&mut self, view: &mut View) -> Op {
        let child = self.view_of_child(view);
        let pool = self.pool();
        let job = self.job(&child, pool);
        view.known.push(job);
        let way = [Way::Plain, Way::Plain, Way::Client, Way::Try][self.numbers.below(4) as usize];
        Op::Spawn { job, pool, way }
    }

    fn detach(&mut self, view: &mut View) -> Op {
        let child = free(view);
        let pool = self.pool();
        let job = self.job(&child, pool);
        self.jobs[job].is_detached = true;
        self.taken[job] = true;
        Op::Detach { job, pool }
    }

    /// Notes that a job waits for another one, and learns its tickets.
    fn wait(&mut self, view: &mut View, of: usize, other: usize) {
        self.taken[other] = true;
        let (least, needs_gang) = (self.jobs[other].least_lock, self.jobs[other].needs_gang);
        let job = &mut self.jobs[of];
        job.least_lock = job.least_lock.min(least);
        job.needs_gang |= needs_gang;
        view.known.extend_from_slice(&self.jobs[other].known);
        view.known.sort_unstable();
        view.known.dedup();
        view.known.retain(|it| !self.taken[*it]);
    }

    fn join(&mut self, view: &mut View, of: usize) -> Option<Op> {
        view.known.retain(|it| !self.taken[*it]);
        let all: Vec<_> = view.known.iter().copied().filter(|it| view.allows(&self.jobs[*it])).collect();
        if all.is_empty() {
            return None;
        }
        // Half of the joins are of young tickets, whose jobs have often not begun.
        let count = if self.chance(2) { all.len() as u64 } else { all.len().min(3) as u64 };
        let job = all[all.len() - 1 - self.numbers.below(count) as usize];
        self.wait(view, of, job);
        Some(Op::Join(job))
    }

    fn scope(&mut self, view: &mut View, of: usize) -> Op {
        let pool = self.pool();
        let child = View { may_lock: true, ..view.clone() };
        let mut has_panic = false;
        let count = 1 + self.numbers.below(4);
        let jobs = (0..count).map(|_| self.inner(&child, pool, &mut has_panic, 2)).collect::<Vec<_>>();
        let mut open: Vec<&Inner> = jobs.iter().collect();
        while let Some(inner) = open.pop() {
            self.wait(view, of, inner.job);
            open.extend(&inner.inner);
        }
        Op::Scope { pool, jobs }
    }

    /// Makes a job of a scope. One panics at most of those that are not joined.
    fn inner(&mut self, view: &View, pool: usize, has_panic: &mut bool, depth: u64) -> Inner {
        let (job, is_joined) = (self.job(view, pool), depth == 2 && self.chance(3));
        self.taken[job] = true;
        if !is_joined {
            self.jobs[job].panics &= !*has_panic;
            *has_panic |= self.jobs[job].panics;
        }
        let view = View { known: self.jobs[job].known.clone(), depth: view.depth + 1, ..view.clone() };
        let count = if self.has_room(&view) { self.numbers.below(depth + 1) } else { 0 };
        let inner = (0..count).map(|_| self.inner(&view, pool, has_panic, depth - 1)).collect();
        Inner { job, is_joined, inner }
    }

    fn gang(&mut self, view: &mut View, of: usize) -> Op {
        let pool = self.pool();
        let dim = self.numbers.below(u64::from(self.sizes.dims[pool].min(2)) + 1) as u32;
        let job = self.add(pool, Some(Members { dim, spawns: Vec::new() }));
        self.jobs[of].needs_gang = true;
        let child = View { depth: view.depth + 1, ..free(view) };
        for rank in 0..1 << dim {
            if self.chance(2) && self.has_room(&child) {
                let pool = self.pool();
                let spawned = self.job(&child, pool);
                self.jobs[job].known.push(spawned);
                self.jobs[job].gang.as_mut().expect("a gang").spawns.push((rank, spawned, pool));
            }
        }
        let way = [GangWay::Run, GangWay::Submit, GangWay::InScope][self.numbers.below(3) as usize];
        if way == GangWay::Submit {
            view.known.push(job);
        } else {
            self.wait(view, of, job);
        }
        Op::Gang { job, pool, way }
    }

    /// Makes operations under a lock. What they wait for takes larger locks only, and no gang.
    fn lock(&mut self, view: &mut View, of: usize) -> Op {
        let lock = view.floor + self.numbers.below((LOCKS - view.floor) as u64) as usize;
        self.jobs[of].least_lock = self.jobs[of].least_lock.min(lock);
        let mut under = View { floor: lock + 1, may_need_gang: false, ..view.clone() };
        let count = 1 + self.numbers.below(4);
        let ops = self.ops(&mut under, of, count);
        view.known = under.known;
        Op::Lock { lock, ops }
    }
}

fn sizes(numbers: &mut Numbers) -> Sizes {
    let mut pick = |from: &[u64]| from[numbers.below(from.len() as u64) as usize];
    let dims = (0..pick(&[1, 1, 2])).map(|_| pick(&[0, 1, 2, 3]) as u32).collect();
    let (capacity, lanes) = (pick(&[1, 1, 2, 3, 4, 8, 16, 64]), pick(&[1, 2, 4]) as u32);
    let spares = pick(&[0, 1, 256]) as usize;
    let end = [End::Last, End::ByJob, End::Meanwhile][pick(&[0, 0, 0, 1, 1, 2]) as usize];
    let is_outside = end == End::Meanwhile || end == End::Last && pick(&[0, 1]) == 1;
    Sizes { dims, capacity, lanes, spares, end, is_outside }
}

/// Makes the program of a seed.
fn program(seed: u64) -> Program {
    let mut numbers = Numbers::new(seed + 1);
    (0..8).for_each(|_| {
        numbers.below(2);
    });
    let sizes = sizes(&mut numbers);
    let is_flat = sizes.end == End::Meanwhile;
    let mut maker = Maker { numbers, sizes, jobs: Vec::new(), taken: Vec::new() };
    let root = maker.add(0, None);
    maker.jobs[root].panics = false;
    maker.taken[root] = true;
    let ops = match maker.numbers.below(40) {
        0 => chain(&mut maker),
        1 if !is_flat => nest(&mut maker),
        _ if is_flat => flat(&mut maker),
        _ => tree(&mut maker),
    };
    maker.jobs[root].ops = ops;
    Program { sizes: maker.sizes, jobs: maker.jobs }
}

fn tree(maker: &mut Maker) -> Vec<Op> {
    // Outside a pool, a thread sleeps for room. So it holds no lock.
    let may_lock = !maker.sizes.is_outside;
    let mut view = View { known: Vec::new(), floor: 0, may_lock, may_need_gang: true, depth: 0 };
    maker.ops(&mut view, 0, 60)
}

/// Makes jobs that only join, take locks and sleep. The root spawns all.
fn flat(maker: &mut Maker) -> Vec<Op> {
    let mut view = View { known: Vec::new(), floor: 0, may_lock: true, may_need_gang: false, depth: 14 };
    let spawn = |_| {
        let pool = maker.pool();
        let job = maker.job(&view, pool);
        view.known.push(job);
        Op::Spawn { job, pool, way: Way::Plain }
    };
    (0..250).map(spawn).collect()
}

/// Makes 5,000 tickets, each of which is joined by the next job.
fn chain(maker: &mut Maker) -> Vec<Op> {
    let mut spawns = Vec::new();
    for number in 0..5_000 {
        let pool = maker.numbers.below(maker.sizes.dims.len() as u64) as usize;
        let job = maker.add(pool, None);
        maker.jobs[job].ops = match number {
            0 => vec![Op::Sleep(3_000)],
            _ => vec![Op::Join(job - 1)],
        };
        maker.taken[job - 1] = true;
        spawns.push(Op::Spawn { job, pool, way: Way::Plain });
    }
    spawns
}

/// Makes 2,000 jobs, each of which spawns the next one and joins it.
fn nest(maker: &mut Maker) -> Vec<Op> {
    let pools = maker.sizes.dims.len();
    let jobs: Vec<_> = (0..2_000).map(|number| maker.add(number % pools, None)).collect();
    let spawn = |maker: &Maker, job: usize| Op::Spawn { job, pool: maker.jobs[job].pool, way: Way::Plain };
    for pair in jobs.windows(2) {
        maker.jobs[pair[0]].ops = vec![spawn(maker, pair[1]), Op::Join(pair[1])];
        maker.taken[pair[1]] = true;
    }
    maker.taken[jobs[0]] = true;
    vec![spawn(maker, jobs[0]), Op::Join(jobs[0])]
}

// ---------------------------------------------------------------------------------------------
// The result, one job after another.

/// What a job returns, or its number if it panics.
type Outcome = Result<u64, usize>;

/// Returns what an outcome adds to the value of the job that sees it.
fn worth(outcome: Outcome) -> u64 {
    outcome.unwrap_or_else(|number| (number as u64 + 1).wrapping_mul(0x9e37_79b9_7f4a_7c15))
}

struct Sequence<'a> {
    jobs: &'a [Job],
    outcomes: Vec<Option<Outcome>>,
    is_open: Vec<bool>,
}

impl Sequence<'_> {
    /// Returns the outcome of a job.
    ///
    /// # Panics
    ///
    /// Panics if jobs wait for each other in a circle.
    fn outcome(&mut self, number: usize) -> Outcome {
        if let Some(known) = self.outcomes[number] {
            return known;
        }
        assert!(!self.is_open[number], "the generator has made a circle of jobs that wait");
        self.is_open[number] = true;
        let jobs = self.jobs;
        let job = &jobs[number];
        let value = match &job.gang {
            Some(members) => {
                let size = 1_u64 << members.dim;
                job.constant.wrapping_mul(size).wrapping_add(size * (size - 1) / 2)
            }
            None => job.constant.wrapping_add(self.sum(&job.ops)),
        };
        let outcome = if job.panics { Err(number) } else { Ok(value) };
        self.outcomes[number] = Some(outcome);
        outcome
    }

    fn sum(&mut self, ops: &[Op]) -> u64 {
        ops.iter().fold(0, |sum, op| {
            let value = match op {
                Op::Join(job) => worth(self.outcome(*job)),
                Op::Scope { jobs, .. } => self.sum_of_scope(jobs),
                Op::Gang { way: GangWay::Submit, .. } => 0,
                Op::Gang { job, .. } => worth(self.outcome(*job)),
                Op::Lock { ops, .. } => self.sum(ops),
                Op::Spawn { .. } | Op::Detach { .. } | Op::Sleep(_) => 0,
            };
            sum.wrapping_add(value)
        })
    }

    fn sum_of_scope(&mut self, jobs: &[Inner]) -> u64 {
        jobs.iter().fold(0, |sum: u64, inner| {
            let own = worth(self.outcome(inner.job));
            sum.wrapping_add(own).wrapping_add(self.sum_of_scope(&inner.inner))
        })
    }
}

/// Returns the outcome of each job.
fn outcomes(jobs: &[Job]) -> Vec<Outcome> {
    let count = jobs.len();
    let mut sequence = Sequence { jobs, outcomes: vec![None; count], is_open: vec![false; count] };
    (0..count).map(|number| sequence.outcome(number)).collect()
}

// ---------------------------------------------------------------------------------------------
// The backends: pools, or a thread for each job.

type Payload = Box<dyn Any + Send>;

/// The payload of a job that is to panic: its number.
struct Fail(usize);

fn fail(number: usize) -> ! {
    resume_unwind(Box::new(Fail(number)))
}

/// Returns the outcome of a result. A panic that was not planned goes on.
fn outcome_of(result: thread::Result<u64>) -> Outcome {
    result.map_err(|payload| match payload.downcast::<Fail>() {
        Ok(fail) => fail.0,
        Err(payload) => resume_unwind(payload),
    })
}

enum Backend {
    Pools(Vec<Pool>),
    Threads,
}

enum AnyTicket {
    Pool(Ticket<u64>),
    Thread(thread::JoinHandle<u64>),
    Ended(Outcome),
}

impl AnyTicket {
    fn join(self) -> Outcome {
        match self {
            AnyTicket::Pool(ticket) => outcome_of(ticket.join()),
            AnyTicket::Thread(handle) => outcome_of(handle.join()),
            AnyTicket::Ended(outcome) => outcome,
        }
    }
}

#[derive(Clone)]
enum AnyScope<'scope, 'env> {
    Pool(&'scope Scope<'scope, 'env>),
    Threads(&'scope thread::Scope<'scope, 'env>, Arc<Mutex<Option<Payload>>>),
}

enum AnyScopeTicket<'scope> {
    Pool(ScopeTicket<'scope, u64>),
    Thread(thread::ScopedJoinHandle<'scope, u64>),
}

impl<'scope> AnyScope<'scope, '_> {
    fn spawn(&self, call: impl FnOnce() -> u64 + Send + 'scope) -> AnyScopeTicket<'scope> {
        match self {
            AnyScope::Pool(scope) => AnyScopeTicket::Pool(scope.spawn(call)),
            AnyScope::Threads(scope, _) => AnyScopeTicket::Thread(scope.spawn(call)),
        }
    }

    fn detach(&self, call: impl FnOnce() + Send + 'scope) {
        match self {
            AnyScope::Pool(scope) => scope.detach(call),
            AnyScope::Threads(scope, panic) => {
                let panic = panic.clone();
                scope.spawn(move || {
                    if let Err(payload) = catch_unwind(AssertUnwindSafe(call)) {
                        *lock(&panic) = Some(payload);
                    }
                });
            }
        }
    }
}

impl AnyScopeTicket<'_> {
    fn join(self) -> Outcome {
        match self {
            AnyScopeTicket::Pool(ticket) => outcome_of(ticket.join()),
            AnyScopeTicket::Thread(handle) => outcome_of(handle.join()),
        }
    }
}

/// What a member sees: its group, or its rank and what the threads of a gang share.
enum AnyGroup<'a> {
    Pool(&'a Group<'a>),
    Threads(usize, &'a (Barrier, AtomicU64)),
}

impl AnyGroup<'_> {
    fn rank(&self) -> usize {
        match self {
            AnyGroup::Pool(group) => group.rank(),
            AnyGroup::Threads(rank, _) => *rank,
        }
    }

    /// Returns the sum of the values of all members.
    fn sum(&self, value: u64) -> u64 {
        match self {
            AnyGroup::Pool(group) => group.all_reduce(value, u64::wrapping_add),
            AnyGroup::Threads(_, (all, sum)) => {
                sum.fetch_add(value, SeqCst);
                all.wait();
                sum.load(SeqCst)
            }
        }
    }

    /// Waits for the other members, unless the panic of one could not free them.
    fn barrier(&self) {
        if let AnyGroup::Pool(group) = self {
            group.barrier();
        }
    }
}

fn lock<T>(mutex: &Mutex<T>) -> MutexGuard<'_, T> {
    mutex.lock().unwrap_or_else(PoisonError::into_inner)
}

/// Starts a thread whose stack is small.
fn thread(call: impl FnOnce() -> u64 + Send + 'static) -> thread::JoinHandle<u64> {
    thread::Builder::new().stack_size(256 << 10).spawn(call).expect("there is a thread for each job")
}

/// Runs a gang by a thread for each member. Returns the result of rank 0.
fn gang_of_threads(dim: u32, body: &(dyn Fn(AnyGroup<'_>) -> u64 + Sync)) -> u64 {
    let shared = (Barrier::new(1 << dim), AtomicU64::new(0));
    let results: Vec<_> = thread::scope(|scope| {
        let shared = &shared;
        let member = |rank| scope.spawn(move || body(AnyGroup::Threads(rank, shared)));
        let members: Vec<_> = (0..1 << dim).map(member).collect();
        members.into_iter().map(thread::ScopedJoinHandle::join).collect()
    });
    let values: Result<Vec<_>, _> = results.into_iter().collect();
    values.unwrap_or_else(|payload| resume_unwind(payload))[0]
}

impl Backend {
    fn new(sizes: &Sizes, is_by_threads: bool) -> Self {
        if is_by_threads {
            return Backend::Threads;
        }
        let pool = |dim: &u32| {
            let builder = Pool::builder().workers_log2(*dim).lane_capacity(sizes.capacity);
            builder.shared_lanes(sizes.lanes).max_threads(sizes.spares).build().unwrap()
        };
        Backend::Pools(sizes.dims.iter().map(pool).collect())
    }

    fn spawn(&self, pool: usize, way: Way, call: impl FnOnce() -> u64 + Send + 'static) -> AnyTicket {
        let Backend::Pools(pools) = self else { return AnyTicket::Thread(thread(call)) };
        let pool = &pools[pool];
        let again = |refused: Refused<_>| pool.spawn(refused.job);
        AnyTicket::Pool(match way {
            Way::Plain => pool.spawn(call),
            Way::Try => pool.try_spawn(call).unwrap_or_else(again),
            Way::Client => match pool.client() {
                Ok(mut client) => client.spawn(call).unwrap_or_else(again),
                Err(_) => pool.spawn(call),
            },
        })
    }

    fn detach(&self, pool: usize, call: impl FnOnce() + Send + 'static) {
        match self {
            Backend::Pools(pools) => pools[pool].detach(call),
            Backend::Threads => {
                drop(thread(move || {
                    call();
                    0
                }));
            }
        }
    }

    fn scope<'env>(
        &self,
        pool: usize,
        call: impl for<'scope> FnOnce(AnyScope<'scope, 'env>),
    ) -> thread::Result<()> {
        match self {
            Backend::Pools(pools) => {
                let scope = || pools[pool].scope(|scope| call(AnyScope::Pool(scope)));
                catch_unwind(AssertUnwindSafe(scope))
            }
            Backend::Threads => {
                let panic = Arc::new(Mutex::new(None));
                thread::scope(|scope| call(AnyScope::Threads(scope, panic.clone())));
                let first = lock(&panic).take();
                first.map_or(Ok(()), Err)
            }
        }
    }

    fn run<F>(&self, pool: usize, dim: u32, body: &F) -> Outcome
    where
        F: Fn(AnyGroup<'_>) -> u64 + Send + Sync,
    {
        let run = || match self {
            Backend::Threads => gang_of_threads(dim, body),
            Backend::Pools(pools) => {
                let values = pools[pool].run(dim, |group| body(AnyGroup::Pool(group)));
                assert!(values.len() == 1 << dim && values.iter().all(|it| *it == values[0]));
                values[0]
            }
        };
        outcome_of(catch_unwind(AssertUnwindSafe(run)))
    }

    fn gang<F>(&self, pool: usize, dim: u32, way: GangWay, body: F) -> AnyTicket
    where
        F: Fn(AnyGroup<'_>) -> u64 + Send + Sync + 'static,
    {
        let Backend::Pools(pools) = self else {
            let call = move || gang_of_threads(dim, &body);
            return match way {
                GangWay::Submit => AnyTicket::Thread(thread(call)),
                _ => AnyTicket::Ended(outcome_of(catch_unwind(AssertUnwindSafe(call)))),
            };
        };
        let body = Arc::new(body);
        let again = || AnyTicket::Ended(self.run(pool, dim, &*body));
        let ours = body.clone();
        match way {
            GangWay::Run => again(),
            GangWay::Submit => match pools[pool].submit(dim, move |group| ours(AnyGroup::Pool(group))) {
                Ok(ticket) => AnyTicket::Pool(ticket),
                Err(_) => again(),
            },
            GangWay::InScope => {
                let body = &body;
                let submitted = pools[pool].scope(|scope| {
                    let gang = scope.submit(dim, move |group| body(AnyGroup::Pool(group)));
                    gang.ok().map(|ticket| outcome_of(ticket.join()))
                });
                submitted.map_or_else(again, AnyTicket::Ended)
            }
        }
    }
}

// ---------------------------------------------------------------------------------------------
// A run of a program.

struct State {
    table: Vec<Mutex<Option<AnyTicket>>>,
    /// The value that each job has computed.
    values: Vec<AtomicU64>,
    locks: [Mutex<()>; LOCKS],
    /// The number of jobs that have not ended, and the sum of those that were detached.
    left: AtomicUsize,
    detached: AtomicU64,
}

/// What each job has. Without pools it spawns nothing, and the pools may be dropped meanwhile.
#[derive(Clone)]
struct Here {
    program: Arc<Program>,
    state: Arc<State>,
    backend: Option<Arc<Backend>>,
}

impl Here {
    fn backend(&self) -> &Backend {
        self.backend.as_ref().expect("a job that spawns has its pools")
    }

    /// Returns what a job gets that is spawned here.
    fn for_child(&self) -> Self {
        let is_flat = self.program.sizes.end == End::Meanwhile;
        Here { backend: self.backend.clone().filter(|_| !is_flat), ..self.clone() }
    }

    /// Runs a job, and returns its value.
    fn run(&self, number: usize) -> u64 {
        let job = &self.program.jobs[number];
        let value = job.constant.wrapping_add(self.sum(&job.ops));
        self.end(number, value);
        value
    }

    /// Notes the value of a job that ends.
    fn end(&self, number: usize, value: u64) {
        let job = &self.program.jobs[number];
        self.state.values[number].store(value, SeqCst);
        if job.is_detached && !job.panics {
            self.state.detached.fetch_add(value, SeqCst);
        }
        self.state.left.fetch_sub(1, SeqCst);
        if job.panics {
            fail(number);
        }
    }

    fn sum(&self, ops: &[Op]) -> u64 {
        ops.iter().fold(0, |sum, op| sum.wrapping_add(self.op(op)))
    }

    fn op(&self, op: &Op) -> u64 {
        match op {
            Op::Spawn { job, pool, way } => self.spawn(*job, *pool, *way),
            Op::Detach { job, pool } => {
                let (here, job) = (self.for_child(), *job);
                self.backend().detach(*pool, move || {
                    here.run(job);
                });
            }
            Op::Join(job) => return self.join(*job),
            Op::Scope { pool, jobs } => return self.scope(*pool, jobs),
            Op::Gang { job, pool, way } => return self.gang(*job, *pool, *way),
            Op::Lock { lock: number, ops } => {
                let _held = lock(&self.state.locks[*number]);
                return self.sum(ops);
            }
            Op::Sleep(micros) => thread::sleep(Duration::from_micros(*micros)),
        }
        0
    }

    fn spawn(&self, job: usize, pool: usize, way: Way) {
        let here = self.for_child();
        let ticket = self.backend().spawn(pool, way, move || here.run(job));
        *lock(&self.state.table[job]) = Some(ticket);
    }

    fn join(&self, job: usize) -> u64 {
        let ticket = lock(&self.state.table[job]).take();
        worth(ticket.expect("the ticket is in the table before its joiner takes it").join())
    }

    fn gang(&self, job: usize, pool: usize, way: GangWay) -> u64 {
        let here = self.for_child();
        let dim = self.program.jobs[job].gang.as_ref().expect("a gang").dim;
        let ticket = self.backend().gang(pool, dim, way, move |group| here.member(job, &group));
        if way == GangWay::Submit {
            *lock(&self.state.table[job]) = Some(ticket);
            return 0;
        }
        worth(ticket.join())
    }

    /// Runs the part of a member: it spawns, adds up, and panics if it is to.
    fn member(&self, number: usize, group: &AnyGroup<'_>) -> u64 {
        let job = &self.program.jobs[number];
        let members = job.gang.as_ref().expect("a gang");
        for (_, spawned, pool) in members.spawns.iter().filter(|it| it.0 == group.rank()) {
            self.spawn(*spawned, *pool, Way::Plain);
        }
        let sum = group.sum(job.constant.wrapping_add(group.rank() as u64));
        if group.rank() == number % (1 << members.dim) {
            self.end(number, sum);
        }
        group.barrier();
        sum
    }

    /// Opens a scope, whose jobs leave their values in a local list. A panic of one that is not
    /// joined is that of the scope.
    fn scope(&self, pool: usize, jobs: &[Inner]) -> u64 {
        let (cells, joined) = (AtomicU64::new(0), AtomicU64::new(0));
        let result = self.backend().scope(pool, |scope| {
            let tickets: Vec<_> = jobs.iter().filter_map(|it| self.in_scope(&scope, it, &cells)).collect();
            let sum = tickets.into_iter().fold(0_u64, |sum, it| sum.wrapping_add(worth(it.join())));
            joined.store(sum, SeqCst);
        });
        let panic = match outcome_of(result.map(|()| 0)) {
            Ok(_) => 0,
            Err(number) => worth(Err(number)),
        };
        cells.into_inner().wrapping_add(joined.into_inner()).wrapping_add(panic)
    }

    /// Spawns a job into a scope. It adds its value to the sum, unless it is joined.
    fn in_scope<'scope>(
        &self,
        scope: &AnyScope<'scope, '_>,
        inner: &'scope Inner,
        sum: &'scope AtomicU64,
    ) -> Option<AnyScopeTicket<'scope>> {
        let (here, again) = (self.clone(), scope.clone());
        let children = move |here: &Here| {
            for child in &inner.inner {
                here.in_scope(&again, child, sum);
            }
        };
        let job = inner.job;
        if inner.is_joined {
            return Some(scope.spawn(move || {
                let result = catch_unwind(AssertUnwindSafe(|| here.run(job)));
                children(&here);
                result.unwrap_or_else(|payload| resume_unwind(payload))
            }));
        }
        scope.detach(move || {
            let result = catch_unwind(AssertUnwindSafe(|| here.run(job)));
            children(&here);
            match result {
                Ok(value) => {
                    sum.fetch_add(value, SeqCst);
                }
                Err(payload) => resume_unwind(payload),
            }
        });
        None
    }
}

/// Runs the root of a program. Returns what main keeps: nothing of the pools.
fn start(program: &Arc<Program>, is_by_threads: bool) -> (Arc<State>, Option<Arc<Backend>>) {
    let count = program.jobs.len();
    let state = Arc::new(State {
        table: (0..count).map(|_| Mutex::new(None)).collect(),
        values: (0..count).map(|_| AtomicU64::new(0)).collect(),
        locks: Default::default(),
        left: AtomicUsize::new(count),
        detached: AtomicU64::new(0),
    });
    let backend = Arc::new(Backend::new(&program.sizes, is_by_threads));
    let here = Here { program: program.clone(), state: state.clone(), backend: Some(backend.clone()) };
    if program.sizes.is_outside {
        here.run(0);
    } else {
        here.spawn(0, 0, Way::Plain);
    }
    drop(here);
    let kept = (program.sizes.end == End::Last).then_some(backend);
    (state, kept)
}

/// Runs a program, and compares what its jobs return with the results that were computed.
fn run(seed: u64, is_by_threads: bool) {
    let program = Arc::new(program(seed));
    let expected = outcomes(&program.jobs);
    let (state, kept) = start(&program, is_by_threads);
    let rest = |number: usize| {
        if let Some(ticket) = lock(&state.table[number]).take() {
            assert_eq!(ticket.join(), expected[number], "the ticket of job {number} of seed {seed}");
        }
    };
    // The root first: others may take tickets as long as it runs.
    rest(0);
    while state.left.load(SeqCst) > 0 {
        thread::sleep(Duration::from_micros(200));
    }
    (0..expected.len()).for_each(rest);
    drop(kept);
    let mut detached = 0_u64;
    for (number, (job, outcome)) in program.jobs.iter().zip(&expected).enumerate() {
        if let Ok(value) = outcome {
            assert_eq!(state.values[number].load(SeqCst), *value, "job {number} of seed {seed}");
            detached = detached.wrapping_add(if job.is_detached { *value } else { 0 });
        }
    }
    assert_eq!(state.detached.load(SeqCst), detached, "the detached jobs of seed {seed}");
    wait_for_threads(0);
}

// ---------------------------------------------------------------------------------------------
// The tests.

fn number_of(variable: &str) -> Option<u64> {
    env::var(variable).ok().map(|it| it.parse().expect("the variable is a number"))
}

/// Runs the program of `POOL_GRAPH`, if there is one. The tests below run it so.
#[test]
fn one_graph() {
    let Some(seed) = number_of("POOL_GRAPH") else { return };
    let _limited = limited(20);
    // The results are computed by recursion.
    let is_by_threads = env::var_os("POOL_GRAPH_BY_THREADS").is_some();
    let run = thread::Builder::new().stack_size(64 << 20).spawn(move || run(seed, is_by_threads));
    run.unwrap().join().unwrap_or_else(|payload| resume_unwind(payload));
}

/// Runs the program of a seed in a process of its own. Returns how it failed.
fn fault(seed: u64, before: &[&str], is_by_threads: bool) -> Option<String> {
    let test = env::current_exe().unwrap();
    let mut words = before.iter().map(std::ffi::OsStr::new).chain([test.as_os_str()]);
    let mut command = Command::new(words.next().expect("there is a program"));
    command.args(words).args(["--exact", "one_graph", "--nocapture"]).env("POOL_GRAPH", seed.to_string());
    if is_by_threads {
        command.env("POOL_GRAPH_BY_THREADS", "yes");
    }
    let output = command.output().unwrap();
    let said = String::from_utf8_lossy(&output.stderr);
    if output.status.success() && String::from_utf8_lossy(&output.stdout).contains("1 passed") {
        return None;
    }
    let kind = match () {
        () if said.contains("panicked at") => "wrong",
        () if said.contains("has not ended") => "hung",
        () => "aborted",
    };
    let sizes = program(seed).sizes;
    Some(format!("POOL_GRAPH={seed} {kind}: {sizes:?}, {}\n{said}", output.status))
}

/// Runs programs, as many at once as there are processors. No other test does so meanwhile.
fn run_all(count: u64, before: &[&str], is_by_threads: bool) {
    static ALONE: Mutex<()> = Mutex::new(());
    let _alone = lock(&ALONE);
    let from = number_of("POOL_GRAPHS_FROM").unwrap_or(0);
    let (next, faults) = (AtomicU64::new(from), Mutex::new(Vec::new()));
    let at_once = thread::available_parallelism().unwrap().get();
    thread::scope(|threads| {
        for _ in 0..at_once {
            threads.spawn(|| loop {
                let seed = next.fetch_add(1, SeqCst);
                if seed >= from + count {
                    return;
                }
                lock(&faults).extend(fault(seed, before, is_by_threads));
            });
        }
    });
    let faults = faults.into_inner().unwrap();
    assert!(faults.is_empty(), "{} of {count} programs failed\n{}", faults.len(), faults.join("\n"));
}

#[test]
fn graphs_end_with_their_results() {
    run_all(number_of("POOL_GRAPHS").unwrap_or(200), &[], false);
}

#[test]
fn graphs_end_on_one_processor() {
    if Command::new("taskset").arg("--version").output().is_ok_and(|it| it.status.success()) {
        run_all(number_of("POOL_GRAPHS").unwrap_or(200) / 4, &["taskset", "-c", "0"], false);
    }
}

/// Sees that the programs are right: each ends if each job has a thread of its own.
#[test]
fn graphs_end_by_threads() {
    run_all(60.max(number_of("POOL_GRAPHS").unwrap_or(0)), &[], true);
}
