//! Random calls of several machines beside a model: a table of the processors that are held. One
//! thread alone is refused exactly where the model has no such block. Several threads get blocks
//! that nobody else has, also by channels, by regions and by handles.
//!
//! `REGIONS_CALLS` is the number of calls, and `REGIONS_SEED` where the random numbers begin.

use cubejobs::regions::{Block, Handle, Machine, Occupancy, TakeError};
use cubejobs::Region;
use std::env;
use std::mem::forget;
use std::sync::atomic::{AtomicBool, AtomicU64, Ordering::SeqCst};
use std::sync::Mutex;
use std::thread;
use std::time::Duration;

const DIMS: [u32; 3] = [3, 7, 10];
const THREADS: usize = 6;
/// The calls of a run in the gate, of which one thread alone makes half.
const CALLS: u64 = 200_000;
/// A thread that has this number of guards gives one back.
const MOST: usize = 40;

type Guard<'a> = (usize, Block<&'a Machine>);

/// A machine, and which of its processors are held.
struct Place {
    machine: Machine,
    is_held: Vec<AtomicBool>,
    /// The number of processors in blocks whose guards were forgotten.
    lost: AtomicU64,
}

/// A take, and what it asks for.
#[derive(Clone, Copy, Debug)]
enum Ask {
    Quick(u32),
    Exact(u32),
    At(Region),
    Timed(u32, Duration),
}

impl Place {
    fn new(dim: u32) -> Place {
        let is_held = (0..1 << dim).map(|_| AtomicBool::new(false)).collect();
        Place { machine: Machine::new(dim).unwrap(), is_held, lost: AtomicU64::new(0) }
    }

    fn has_block(&self, region: Region) -> bool {
        region.dim <= self.machine.dim()
            && region.base % (1 << region.dim) == 0
            && region.base < self.is_held.len() as u64
    }

    fn is_free(&self, region: Region) -> bool {
        self.is_held[region.base as usize..][..1 << region.dim].iter().all(|it| !it.load(SeqCst))
    }

    fn count_free(&self, k: u32) -> u64 {
        let bases = (0..self.is_held.len() as u64).step_by(1 << k);
        bases.filter(|&base| self.is_free(Region { base, dim: k })).count() as u64
    }

    /// Notes that a block is held, or that it is free.
    fn set(&self, region: Region, is_held: bool) {
        assert!(self.has_block(region), "{region} is no block");
        for place in &self.is_held[region.base as usize..][..1 << region.dim] {
            assert_ne!(place.swap(is_held, SeqCst), is_held, "a part of {region} has two owners");
        }
    }

    /// Returns the refusal of a take by the machine's numbers alone.
    fn is_no_block(&self, ask: Ask) -> Option<TakeError> {
        let (Ask::Quick(k) | Ask::Exact(k) | Ask::Timed(k, _) | Ask::At(Region { dim: k, .. })) = ask;
        match ask {
            _ if k > self.machine.dim() => Some(TakeError::BadDimension),
            Ask::At(region) if !self.has_block(region) => Some(TakeError::BadBase),
            _ => None,
        }
    }

    /// Returns the refusal of a take that runs alone.
    fn refusal_alone(&self, ask: Ask) -> Option<TakeError> {
        self.is_no_block(ask).or_else(|| match ask {
            Ask::Quick(_) => None,
            Ask::Exact(k) => (self.count_free(k) == 0).then_some(TakeError::NoRoom),
            Ask::Timed(k, _) => (self.count_free(k) == 0).then_some(TakeError::TimedOut),
            Ask::At(region) => (!self.is_free(region)).then_some(TakeError::Taken),
        })
    }

    /// Panics if a take beside others must not be refused so.
    fn check_refusal(&self, ask: Ask, error: TakeError) {
        let is_allowed = match (self.is_no_block(ask), ask) {
            (Some(expected), _) => error == expected,
            (None, Ask::Quick(_)) => error == TakeError::NotNow,
            (None, Ask::Exact(_)) => matches!(error, TakeError::NoRoom | TakeError::NotNow),
            (None, Ask::At(_)) => matches!(error, TakeError::Taken | TakeError::NotNow),
            (None, Ask::Timed(..)) => error == TakeError::TimedOut,
        };
        assert!(is_allowed, "{ask:?} is refused by {error:?}");
    }
}

/// A thread that makes random calls.
struct Caller<'a, 'b> {
    state: u64,
    is_alone: bool,
    places: &'a [Place],
    handles: Vec<Option<Handle<&'a Machine>>>,
    held: Vec<Guard<'a>>,
    raw: Vec<(usize, Region)>,
    inboxes: &'b [Mutex<Vec<Guard<'a>>>],
}

impl<'a, 'b> Caller<'a, 'b> {
    fn new(seed: u64, places: &'a [Place], inboxes: &'b [Mutex<Vec<Guard<'a>>>]) -> Self {
        let handles = places.iter().map(|_| None).collect();
        let (held, raw) = (Vec::new(), Vec::new());
        // A state of 0 would stay 0.
        let state = seed.wrapping_mul(0x9e37_79b9_7f4a_7c15) | 1;
        Caller { state, is_alone: inboxes.len() == 1, places, handles, held, raw, inboxes }
    }

    fn below(&mut self, most: usize) -> usize {
        self.state ^= self.state << 13;
        self.state ^= self.state >> 7;
        self.state ^= self.state << 17;
        (self.state >> 11) as usize % most
    }

    fn call(&mut self) {
        match self.below(16) {
            0..=5 => self.take(),
            6 | 7 => self.split(),
            8 | 9 => self.join(),
            10 | 11 => self.give_back(),
            12 => self.make_raw(),
            13 => self.send(),
            14 => self.change_handle(),
            _ => self.look(),
        }
        if self.held.len() + self.raw.len() > MOST {
            self.give_back();
        }
    }

    fn ask(&mut self, dim: u32) -> Ask {
        // One in some is larger than the machine, and small ones are more frequent.
        let k = self.below(dim as usize + 2);
        let k = (self.below(k + 1)) as u32 + u32::from(k as u32 == dim + 1);
        let base = (self.below((1 << dim) + 2) >> k.min(dim) << k.min(dim)) as u64;
        match self.below(6) {
            0 | 1 => Ask::Quick(k),
            2 => Ask::Exact(k),
            3 => Ask::At(Region { base, dim: k }),
            4 => Ask::At(Region { base: base + self.below(2) as u64, dim: k }),
            _ => Ask::Timed(k, Duration::from_micros(self.below(100) as u64)),
        }
    }

    fn take(&mut self) {
        let number = self.below(self.places.len());
        let place = &self.places[number];
        let ask = self.ask(place.machine.dim());
        let expected = place.refusal_alone(ask);
        let taken = match (&mut self.handles[number], ask) {
            (Some(handle), Ask::Quick(k)) => handle.take(k),
            (Some(handle), Ask::Exact(k)) => handle.take_exact(k),
            (Some(handle), Ask::At(region)) => handle.take_at(region),
            (Some(handle), Ask::Timed(k, time)) => handle.take_timeout(k, time),
            (None, Ask::Quick(k)) => place.machine.take(k),
            (None, Ask::Exact(k)) => place.machine.take_exact(k),
            (None, Ask::At(region)) => place.machine.take_at(region),
            (None, Ask::Timed(k, time)) => place.machine.take_timeout(k, time),
        };
        if self.is_alone && !matches!(ask, Ask::Quick(_)) {
            assert_eq!(taken.as_ref().err(), expected.as_ref(), "{ask:?}");
        }
        match taken {
            Err(error) => place.check_refusal(ask, error),
            Ok(block) => {
                let region = block.region();
                place.set(region, true);
                let is_asked = match ask {
                    Ask::Quick(k) | Ask::Exact(k) | Ask::Timed(k, _) => region.dim == k,
                    Ask::At(wanted) => region == wanted,
                };
                assert!(is_asked, "{ask:?} is answered by {region}");
                self.held.push((number, block));
            }
        }
    }

    /// Takes a random guard out of those that it has.
    fn any(&mut self) -> Option<Guard<'a>> {
        let count = self.held.len();
        (count > 0).then(|| self.below(count)).map(|at| self.held.swap_remove(at))
    }

    /// Returns a handle of a machine, unless it has none. The machine may be any of them.
    fn handle(&mut self) -> (usize, Option<&mut Handle<&'a Machine>>) {
        let number = self.below(self.places.len());
        (number, self.handles[number].as_mut())
    }

    fn split(&mut self) {
        let Some((number, block)) = self.any() else { return };
        let region = block.region();
        let (of, handle) = self.handle();
        let (can, halves) = match handle {
            Some(handle) => (of == number, handle.split(block)),
            None => (true, block.split()),
        };
        match halves {
            Ok((lower, upper)) => {
                assert!(can && Some((lower.region(), upper.region())) == region.halves());
                self.held.extend([(number, lower), (number, upper)]);
            }
            Err(block) => {
                assert!(!can || region.dim == 0, "{region} is not split");
                assert_eq!(block.region(), region);
                self.held.push((number, block));
            }
        }
    }

    fn join(&mut self) {
        let Some((number, lower)) = self.any() else { return };
        let whole = Region { base: lower.region().base, dim: lower.region().dim + 1 };
        let wanted = whole.halves().map(|it| it.1);
        let partner = self.held.iter().position(|it| it.0 == number && Some(it.1.region()) == wanted);
        // Mostly it is the other half, if it has it.
        let other = match partner {
            Some(at) if self.below(4) > 0 => Some(self.held.swap_remove(at)),
            _ => self.any(),
        };
        let Some((other_number, upper)) = other else { return self.held.push((number, lower)) };
        let are_halves =
            other_number == number && self.places[number].has_block(whole) && Some(upper.region()) == wanted;
        let regions = (lower.region(), upper.region());
        let (of, handle) = self.handle();
        let (can, joined) = match handle {
            Some(handle) => (of == number && are_halves, handle.join(lower, upper)),
            None => (are_halves, lower.join(upper)),
        };
        match joined {
            Ok(block) => {
                assert!(can && block.region() == whole, "{regions:?} are no halves");
                self.held.push((number, block));
            }
            Err((lower, upper)) => {
                assert!(!can, "{regions:?} are not joined");
                assert_eq!((lower.region(), upper.region()), regions);
                self.held.extend([(number, lower), (other_number, upper)]);
            }
        }
    }

    /// Releases a block: by a drop, or by a handle of any machine. Forgets a guard now and then.
    fn give_back(&mut self) {
        let Some((number, block)) = self.any() else { return };
        let (place, region) = (&self.places[number], block.region());
        if self.below(1000) == 0 {
            place.lost.fetch_add(1 << region.dim, SeqCst);
            return forget(block);
        }
        place.set(region, false);
        let (of, handle) = self.handle();
        let Some(handle) = handle else { return };
        match handle.release(block) {
            Ok(()) => assert_eq!(of, number, "the handle of another machine releases {region}"),
            Err(block) => {
                assert_ne!(of, number, "{region} is not released");
                assert_eq!(block.region(), region);
                // The guard is dropped here.
            }
        }
    }

    /// Makes a guard a region, and another region a guard.
    fn make_raw(&mut self) {
        if let Some((number, block)) = self.any() {
            self.raw.push((number, block.into_raw()));
        }
        if self.below(3) > 0 {
            self.unmake_raw();
        }
    }

    fn unmake_raw(&mut self) {
        if self.raw.is_empty() {
            return;
        }
        let at = self.below(self.raw.len());
        let (number, region) = self.raw.swap_remove(at);
        // SAFETY: the region was a guard of this machine, and is taken out of the list of those.
        let block = unsafe { Block::from_raw(&self.places[number].machine, region) };
        self.held.push((number, block));
    }

    /// Passes a guard on, and takes one that another thread has passed.
    fn send(&mut self) {
        if let Some(guard) = self.any() {
            let to = self.below(self.inboxes.len());
            self.inboxes[to].lock().unwrap().push(guard);
        }
        let from = self.below(self.inboxes.len());
        self.held.extend(self.inboxes[from].lock().unwrap().pop());
    }

    fn change_handle(&mut self) {
        let number = self.below(self.places.len());
        self.handles[number] = match self.handles[number].take() {
            Some(_) => None,
            None => Some(self.places[number].machine.handle().unwrap()),
        };
    }

    fn look(&mut self) {
        let (number, handle) = self.handle();
        let occupancy = match handle {
            Some(handle) => handle.occupancy(),
            None => self.places[number].machine.occupancy(),
        };
        let Occupancy { free, held, largest, .. } = occupancy;
        let (place, dim) = (&self.places[number], self.places[number].machine.dim());
        assert_eq!(largest, (0..=dim).rev().find(|&k| free[k as usize] > 0));
        assert!(free.iter().zip(0..).all(|(&count, k)| count <= (1 << dim) >> k), "{free:?}");
        let guards = self.held.iter().map(|(number, block)| (*number, block.region()));
        let own = guards.chain(self.raw.iter().copied()).filter(|it| it.0 == number);
        let own: u64 = own.map(|it| 1 << it.1.dim).sum();
        assert!((own..=1 << dim).contains(&held), "{held} processors are held, and {own} of them here");
        if self.is_alone {
            (0..=dim).for_each(|k| assert_eq!(free[k as usize], place.count_free(k)));
            assert_eq!(held, (1 << dim) - place.count_free(0));
        }
    }

    /// Gives all back.
    fn end(mut self) {
        while !self.raw.is_empty() {
            self.unmake_raw();
        }
        while !self.held.is_empty() {
            self.give_back();
        }
    }
}

fn number_of(variable: &str, otherwise: u64) -> u64 {
    env::var(variable).map_or(otherwise, |it| it.parse().expect("a number"))
}

/// Makes random calls by some threads. Then what was not forgotten is free.
fn run(threads: usize, calls: u64) {
    let seed = number_of("REGIONS_SEED", 1);
    println!("REGIONS_SEED={seed} REGIONS_CALLS={calls}");
    let places = DIMS.map(Place::new);
    let inboxes: Vec<_> = (0..threads).map(|_| Mutex::new(Vec::new())).collect();
    thread::scope(|scope| {
        for number in 0..threads as u64 {
            let (places, inboxes) = (&places[..], &inboxes[..]);
            scope.spawn(move || {
                let mut caller = Caller::new(seed + (number << 32), places, inboxes);
                (0..calls / threads as u64).for_each(|_| caller.call());
                caller.end();
            });
        }
    });
    for (number, block) in inboxes.into_iter().flat_map(|it| it.into_inner().unwrap()) {
        places[number].set(block.region(), false);
    }
    for Place { machine, lost, is_held } in places {
        let lost = lost.into_inner();
        assert_eq!(is_held.iter().filter(|it| it.load(SeqCst)).count() as u64, lost);
        assert_eq!(machine.occupancy().held, lost);
        assert_eq!(machine.close().is_err(), lost > 0, "{lost} processors are held");
    }
}

#[test]
fn calls_of_one_thread_are_those_of_the_model() {
    run(1, number_of("REGIONS_CALLS", CALLS) / 2);
}

#[test]
fn calls_of_many_threads_get_blocks_of_their_own() {
    run(THREADS, number_of("REGIONS_CALLS", CALLS) / 2);
}

#[test]
fn short_runs_end_with_and_without_a_forgotten_guard() {
    let calls = number_of("REGIONS_CALLS", CALLS) / 2000;
    (0..20).for_each(|_| run(THREADS, calls));
}
