//! Counts every atomic access of random calls: `steps CALLS` makes that many calls of each structure, by 1 to 8 threads. It
//! ends with an error if a call makes more than its stated number, or if a collective makes other joins than those of its
//! rounds. It also ends so if a thread that stops in the middle of a call of lanes holds up another one. It prints the
//! largest numbers.
#![allow(dead_code)]

extern crate alloc;

#[path = "../../rust/src/place.rs"]
mod place;
#[path = "../../rust/src/shared.rs"]
mod shared;
#[path = "../../rust/src/source/mod.rs"]
#[rustfmt::skip]
mod source;

use source::bitmap_occupancy::occupancy;
use source::bitmap_tree::{BitmapTree, HeldBlock};
use source::collectives::{Monoid, Tally, all_reduce, exscan, reduce, scan};
use source::cube_shape::{Node, Region};
use source::cube_tree::{Cube, Subcube, TreeStation};
use source::lanes::{Finder, Found, Lane, LaneJob, Lanes, Sizes, Sleeper, Submitted, Taken, TakenAny, Worker};
use source::kit::alloc::Global;
use std::collections::BTreeMap;
use std::sync::Mutex;
use std::thread;

/// The words of the sources, each access of which counts for its thread.
pub mod counting {
    use core::cell::Cell;
    use core::sync::atomic::{AtomicU64 as Word, Ordering};

    std::thread_local! {
        static STEPS: Cell<u64> = const { Cell::new(0) };
    }

    /// Returns how many accesses this thread has made.
    pub fn steps() -> u64 {
        STEPS.get()
    }

    pub fn counted<T>(found: T) -> T {
        STEPS.set(STEPS.get() + 1);
        found
    }

    pub struct AtomicU64(Word);

    macro_rules! fetches {
        ($($name:ident)*) => {
            $(pub fn $name(&self, value: u64, order: Ordering) -> u64 {
                counted(self.0.$name(value, order))
            })*
        };
    }

    impl AtomicU64 {
        pub fn new(value: u64) -> Self {
            AtomicU64(Word::new(value))
        }

        pub fn load(&self, order: Ordering) -> u64 {
            counted(self.0.load(order))
        }

        pub fn store(&self, value: u64, order: Ordering) {
            counted(self.0.store(value, order));
        }

        pub fn compare_exchange(&self, old: u64, new: u64, won: Ordering, lost: Ordering) -> Result<u64, u64> {
            counted(self.0.compare_exchange(old, new, won, lost))
        }

        fetches!(swap fetch_add fetch_sub fetch_and fetch_or fetch_xor);
    }
}

/// Random numbers, by splitmix64.
struct Dice(u64);

impl Dice {
    fn next(&mut self) -> u64 {
        self.0 = self.0.wrapping_add(0x9e37_79b9_7f4a_7c15);
        let mixed = (self.0 ^ self.0 >> 30).wrapping_mul(0xbf58_476d_1ce4_e5b9);
        let mixed = (mixed ^ mixed >> 27).wrapping_mul(0x94d0_49bb_1331_11eb);
        mixed ^ mixed >> 31
    }

    fn below(&mut self, limit: u64) -> u64 {
        self.next() % limit
    }

    /// Returns a dimension up to a limit, small ones more often.
    fn dim(&mut self, limit: u32) -> u32 {
        let first = self.below(u64::from(limit) + 1) as u32;
        if self.below(3) == 0 { first } else { first / 2 }
    }
}

/// The largest number of accesses of each call, with the limit of that call.
#[derive(Default)]
struct Most(BTreeMap<String, (u64, u64)>);

impl Most {
    /// Notes a call that made these accesses.
    fn note(&mut self, call: &str, made: u64, limit: u64) {
        assert!(made <= limit, "{call}: {made} atomic accesses, and at most {limit} are stated");
        if made >= self.0.get(call).map_or(0, |most| most.0) {
            self.0.insert(call.to_owned(), (made, limit));
        }
    }

    fn add(&mut self, other: Most) {
        for (call, (made, limit)) in other.0 {
            self.note(&call, made, limit);
        }
    }
}

/// Makes a call, and notes its accesses.
fn counted<T>(most: &mut Most, call: &str, limit: u64, act: impl FnOnce() -> T) -> T {
    let before = counting::steps();
    let result = act();
    most.note(call, counting::steps() - before, limit);
    result
}

/// Runs this on several threads, and returns the largest numbers of all.
fn on_threads(threads: u64, act: impl Fn(u64) -> Most + Sync) -> Most {
    let mut all = Most::default();
    let made: Vec<Most> = thread::scope(|scope| {
        let act = &act;
        let running: Vec<_> = (0..threads).map(|number| scope.spawn(move || act(number))).collect();
        running.into_iter().map(|it| it.join().unwrap()).collect()
    });
    made.into_iter().for_each(|it| all.add(it));
    all
}

/// The words of the lowest level of a machine of dimension `n`.
fn level_words(n: u32) -> u64 {
    1 << n.saturating_sub(6)
}

/// Calls of the bitmap tree. The limits are those of docs/REGIONS.md.
fn regions(most: &mut Most, n: u32, threads: u64, calls: u64, seed: u64) {
    let tree = BitmapTree::open(Global, n).ok().unwrap();
    let shelf: Mutex<Vec<HeldBlock>> = Mutex::new(Vec::new());
    most.add(on_threads(threads, |number| {
        let mut most = Most::default();
        let mut dice = Dice(seed ^ number << 40);
        for _ in 0..calls / threads {
            one_of_regions(&mut most, &mut dice, &tree, n, &shelf);
        }
        most
    }));
    for held in shelf.into_inner().unwrap() {
        let _ = tree.release(held);
    }
}

fn one_of_regions(most: &mut Most, dice: &mut Dice, tree: &BitmapTree, n: u32, shelf: &Mutex<Vec<HeldBlock>>) {
    let limit = TAKE + TAKE_OF_WORD * level_words(n);
    let k = dice.dim(n);
    let near = dice.below(1 << n);
    let some = || shelf.lock().unwrap().pop();
    let put = |held| shelf.lock().unwrap().push(held);
    match dice.below(12) {
        0..=3 => {
            if let Ok(held) = counted(most, "take", limit, || tree.take(k, near)) {
                put(held);
            }
        }
        4 => {
            if let Ok(held) = counted(most, "take_exact", limit, || tree.take_exact(k, near)) {
                put(held);
            }
        }
        5 => {
            let block = Region { base: near >> k << k, dim: k };
            if let Ok(held) = counted(most, "take_at", limit, || tree.take_at(block)) {
                put(held);
            }
        }
        6..=9 => {
            if let Some(held) = some() {
                let _ = counted(most, "release", RELEASE, || tree.release(held));
            }
        }
        10 => {
            if let Some(held) = some() {
                if held.region().dim == 0 {
                    return put(held);
                }
                let (lower, upper) = counted(most, "split", 2, || tree.split(held));
                let held = counted(most, "join", 2, || tree.join(lower, upper));
                put(held);
            }
        }
        _ => {
            let (first, second) = (some(), some());
            if let (Some(a), Some(b)) = (first, second) {
                let (a, b) = counted(most, "apart", 3, || tree.apart(a, b));
                put(a);
                put(b);
            }
            if dice.below(50) == 0 {
                let all: u64 = (0..=n / 6).map(|level| level_words(n - 6 * level)).sum();
                let _ = counted(most, "occupancy", all, || occupancy(tree));
            }
        }
    }
}

/// Accesses of a take, and more of them for each word of the lowest level; and those of a release.
const TAKE: u64 = 200;
const TAKE_OF_WORD: u64 = 8;
const RELEASE: u64 = 160;

/// Calls of lanes, by producers and workers that sleep.
fn lanes(most: &mut Most, count: u32, workers: u32, calls: u64, seed: u64) {
    let sizes = Sizes { lanes: count, workers, capacity: 1 + seed % 7 };
    let (lanes, mut members) = Lanes::open_with_sleepers(Global, sizes).ok().unwrap();
    let producers: Vec<_> = (0..count).map(|_| Mutex::new(Some(lanes.deal_lane(&mut members)))).collect();
    let takers: Vec<_> = (0..workers)
        .map(|_| lanes.deal_worker(Global, &mut members).ok().unwrap().into_finder().ok().unwrap())
        .map(|finder| Mutex::new(Some(finder)))
        .collect();
    let closer = members.into_closer();
    let each = calls / u64::from(count + workers);
    most.add(on_threads(u64::from(count + workers), |number| {
        let mut dice = Dice(seed ^ number << 40);
        let mut most = Most::default();
        match producers.get(number as usize) {
            Some(mine) => produces(&mut most, &mut dice, &lanes, mine.lock().unwrap().as_mut().unwrap(), each),
            None => {
                let mine = &takers[number as usize - producers.len()];
                finds(&mut most, &mut dice, &lanes, mine.lock().unwrap().as_mut().unwrap(), each);
            }
        }
        most
    }));
    let limit = u64::from(count + 3 * workers);
    let note = counted(most, "lanes: close", limit, || lanes.close(closer));
    let _ = note;
    for mine in producers {
        mine.into_inner().unwrap().unwrap().abandon();
    }
    for mine in takers {
        mine.into_inner().unwrap().unwrap().abandon();
    }
}

fn produces(most: &mut Most, dice: &mut Dice, lanes: &Lanes, lane: &mut Lane, calls: u64) {
    for _ in 0..calls {
        let tries = 1 + dice.below(3) as u32;
        let _ = counted(most, "lanes: submit", 5, || lanes.submit(lane, dice.next(), 0));
        let _ = counted(most, "lanes: wake_one", 2 * u64::from(tries) + 1, || lanes.wake_one(lane, tries));
    }
}

fn finds(most: &mut Most, dice: &mut Dice, lanes: &Lanes, finder: &mut Finder, calls: u64) {
    let count = u64::from(lanes.sizes().lanes);
    for _ in 0..calls {
        let tries = 1 + dice.below(4);
        let from = dice.below(count) as u32;
        let limit = tries * (9 * count + 2 * tries + 2);
        let found = counted(most, "lanes: find", limit, || lanes.find(finder, from, tries as u32));
        if matches!(found.found, Found::Park) {
            counted(most, "lanes: awake", 1, || lanes.awake(finder));
        }
        let limit = 2 * tries + 1;
        let _ = counted(most, "lanes: wake_more", limit, || lanes.wake_more(finder, tries as u32));
    }
}

/// Calls of the tree of status words, by a station for each thread. The limits are those of docs/ALGORITHM.md: at depth
/// `j` a take makes at most `3 + 7j` and a release `1 + 5j`, and a search has one load more than its takes.
fn tree(most: &mut Most, n: u32, threads: u64, calls: u64, seed: u64) {
    let (mut cube, stations) = Cube::open(Global, n, threads as u32).ok().unwrap();
    let mut stations = stations;
    let mut places = Vec::new();
    while let Some(station) = stations.pop() {
        places.push(Mutex::new(Some(station)));
    }
    most.add(on_threads(threads, |number| {
        let mut most = Most::default();
        let mut dice = Dice(seed ^ number << 40);
        let mut station = places[number as usize].lock().unwrap().take().unwrap();
        for _ in 0..calls / threads {
            station = one_of_tree(&mut most, &mut dice, &cube, station, n);
        }
        let _ = counted(&mut most, "tree: retire", 1, || station.retire(&cube));
        most
    }));
    let _ = &mut cube;
    assert!(counted(most, "tree: close", 2 + (2 << n), || cube.close()).is_ok());
}

fn one_of_tree(most: &mut Most, dice: &mut Dice, cube: &Cube, station: TreeStation, n: u32) -> TreeStation {
    let j = dice.dim(n);
    let (depth, nodes) = (u64::from(j), 1u64 << j);
    let take = 3 + 7 * depth;
    let held: Result<Subcube, TreeStation> = match dice.below(4) {
        0 => counted(most, "tree: try_node", take, || {
            station.try_node(cube, Node(nodes + dice.below(nodes))).map_err(|(back, _)| back)
        }),
        1 => counted(most, "tree: try_take", nodes * take, || {
            station.try_take(cube, n - j).map_err(|(back, _)| back)
        }),
        _ => counted(most, "tree: search", 1 + nodes * take, || {
            station.search(cube, n - j).map_err(|(back, _)| back)
        }),
    };
    match held {
        Ok(subcube) => counted(most, "tree: release", 1 + 5 * depth, || subcube.release(cube)),
        Err(station) => station,
    }
}

/// Numbers under the sum, each join of which counts as an access does.
#[derive(Clone, Copy)]
struct Joined(u64);

impl Monoid for Joined {
    fn unit() -> Self {
        Joined(0)
    }

    fn join(self, right: Self) -> Self {
        counting::counted(Joined(self.0 + right.0))
    }

    fn is_value(self) -> bool {
        true
    }
}

/// Makes a collective on `2^k` places, and compares its joins and its tally.
fn joins_of(k: u32, call: &str, stated: u64, act: impl FnOnce(&mut [Joined], &mut [Joined]) -> Tally) {
    let mut items: Vec<Joined> = (0..1 << k).map(Joined).collect();
    let mut scratch = items.clone();
    let before = counting::steps();
    let tally = act(&mut items, &mut scratch);
    let made = counting::steps() - before;
    assert!(made == stated, "{call} on 2^{k} places: {made} joins, and {stated} are stated");
    assert!(tally.rounds == k, "{call} on 2^{k} places: {} rounds, and {k} are stated", tally.rounds);
}

/// Collectives: in a round an all-reduce joins each pair of ranks once, a scan twice. A reduction joins as many pairs as the
/// root still waits for.
fn collectives() {
    for k in 0..10 {
        let pairs = (1 << k) / 2 * u64::from(k);
        joins_of(k, "all-reduce", pairs, |items, _| all_reduce(items, k));
        joins_of(k, "scan", 2 * pairs, |items, scratch| scan(items, scratch, k));
        joins_of(k, "exclusive scan", 2 * pairs, |items, scratch| exscan(items, scratch, k));
        joins_of(k, "reduce", (1 << k) - 1, |items, _| reduce(items, k, (1 << k) / 2));
    }
}

/// Makes all steps of a submit to lane 0 except the last, which counts the job. Returns its number.
fn begun_submit(lanes: &Lanes, lane: &mut Lane, payload: u64) -> u64 {
    let count = lanes.read_count(lane).unwrap();
    assert!(lanes.has_room(lane, count));
    let cell = lanes.cell(count);
    lanes.put_payload(lane, count, cell, payload);
    lanes.put_dim(lane, count, cell, 1);
    count
}

/// Makes all steps of a take from lane 0 except the last, which takes the job. Returns the job.
fn begun_take(lanes: &Lanes, sleeper: &mut Sleeper) -> LaneJob {
    let seq = lanes.head_of(sleeper, 0);
    assert!(lanes.count_of(sleeper, 0, seq).is_ok());
    let cell = lanes.cell(seq);
    let payload = lanes.payload_of(sleeper, 0, seq, cell);
    LaneJob { seq, payload, dim: lanes.dim_of(sleeper, 0, seq, cell) }
}

/// A producer that stops before its last step holds up neither the other lane nor a worker, and then goes on.
fn producer_stops(lanes: &Lanes, zero: &mut Lane, one: &mut Lane, worker: &mut Worker) {
    let count = begun_submit(lanes, zero, 10);
    assert_eq!(lanes.take(worker, 0), Taken::Empty);
    assert_eq!(lanes.submit(one, 20, 1), Submitted::Accepted(0));
    assert_eq!(lanes.take_any(worker, 0), TakenAny::AnyJob(1, LaneJob { seq: 0, payload: 20, dim: 1 }, 0));
    assert!(count == 0 && lanes.accept(zero, count, 10, 1));
}

/// A worker that stops before its last step holds up neither the producer nor another worker, which takes the job. When it
/// goes on, it has lost the job, and takes a later one.
fn worker_stops(lanes: &Lanes, zero: &mut Lane, first: &mut Worker, second: &mut Worker) {
    let job = |seq, payload| LaneJob { seq, payload, dim: 1 };
    let begun = begun_take(lanes, &mut first.sleeper);
    assert_eq!(begun, job(0, 10));
    assert_eq!(lanes.take(second, 0), Taken::Job(job(0, 10), 0));
    assert_eq!(lanes.submit(zero, 11, 1), Submitted::Accepted(1));
    assert_eq!(lanes.submit(zero, 12, 1), Submitted::Accepted(2));
    assert_eq!(lanes.take(second, 0), Taken::Job(job(1, 11), 1));
    assert!(!lanes.take_idle(&mut first.sleeper, 0, begun));
    assert_eq!(lanes.take(first, 0), Taken::Job(job(2, 12), 0));
}

/// Threads that stop in the middle of a call of lanes, while others go on.
fn stopped() {
    let sizes = Sizes { lanes: 2, workers: 2, capacity: 2 };
    let (lanes, mut members) = Lanes::open(Global, sizes).ok().unwrap();
    let [mut zero, mut one] = [(); 2].map(|()| lanes.deal_lane(&mut members));
    let [mut first, mut second] = [(); 2].map(|()| lanes.deal_worker(Global, &mut members).ok().unwrap());
    producer_stops(&lanes, &mut zero, &mut one, &mut first);
    worker_stops(&lanes, &mut zero, &mut first, &mut second);
    for lane in [zero, one] {
        lane.abandon();
    }
    for worker in [first, second] {
        worker.abandon();
    }
}

fn main() {
    collectives();
    stopped();
    let calls: u64 = std::env::args().nth(1).unwrap().parse().unwrap();
    let mut most = Most::default();
    for (round, threads) in [1u64, 2, 4, 8].into_iter().enumerate() {
        let seed = 0x5eed + round as u64;
        for n in [0, 1, 6, 7, 10, 13] {
            regions(&mut most, n, threads, calls / 24, seed);
        }
        for n in [0, 1, 3, 5] {
            tree(&mut most, n, threads, calls / 16, seed);
        }
        for (count, workers) in [(1, threads.min(4)), (threads.min(4), 1), (4, 4)] {
            lanes(&mut most, count as u32, workers as u32, calls / 12, seed);
        }
    }
    for (call, (made, limit)) in most.0 {
        println!("{call}: at most {made}, of {limit}");
    }
}
