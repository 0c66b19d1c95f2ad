//! Blocks for gangs.
//!
//! The placer takes gangs from their lanes, and keeps those for which there is no block. The gangs
//! are few, and each is kept in its order. A gang may pass an older one if there is a block for it.
//! The oldest is passed by as many gangs as the pool has workers. Then a block is reserved for it:
//! its free parts are taken and joined, until the block is whole.

use crate::gang::Gang;
use crate::room::Room;
use crate::seat::Seat;
use crate::util::Padded;
use cubejobs::lanes::Worker;
use cubejobs::regions::{Held, Machine};
use cubejobs::Region;
use std::cmp::Reverse;
use std::collections::VecDeque;
use std::sync::atomic::Ordering::{Relaxed, SeqCst};
use std::sync::Arc;

pub(crate) struct Placer {
    machine: Arc<Machine>,
    size: usize,
    /// Takes gangs from their lanes.
    taker: Worker<Box<Gang>>,
    lanes: u32,
    /// The lane at which it looks first. So no lane keeps the gangs of another one waiting.
    from: u32,
    /// The gangs without a block: the oldest first, and at most as many as there are workers.
    waiting: VecDeque<Arc<Gang>>,
    /// How many gangs have passed the oldest.
    passed: usize,
    reserve: Option<Reserve>,
}

/// A block that is reserved for the oldest gang, and the parts of it that are held already.
struct Reserve {
    target: Region,
    parts: Vec<Held>,
}

impl Placer {
    /// Makes a placer that takes gangs from this number of lanes.
    pub fn new(machine: Machine, taker: Worker<Box<Gang>>, lanes: u32) -> Self {
        let size = 1 << machine.dim();
        let waiting = VecDeque::new();
        let machine = Arc::new(machine);
        Placer { machine, size, taker, lanes, from: 0, waiting, passed: 0, reserve: None }
    }

    /// Takes a gang from the lanes, if there is room for one more that waits. Each lane has its
    /// room.
    fn take(&mut self, rooms: &[Padded<Room>]) -> Option<Arc<Gang>> {
        if self.waiting.len() >= self.size {
            return None;
        }
        // A thread that submits a gang during this call places gangs afterwards.
        let job = self.taker.take_any(self.from).ok()?;
        self.from = (job.lane + 1) % self.lanes;
        rooms[job.lane as usize].made();
        Some(Arc::new(*job.payload))
    }

    /// Takes all gangs that have not begun, and gives up what is reserved for them.
    pub fn give_up(&mut self, rooms: &[Padded<Room>]) -> Vec<Arc<Gang>> {
        self.reserve = None;
        let mut all: Vec<_> = self.waiting.drain(..).collect();
        while let Some(gang) = self.take(rooms) {
            all.push(gang);
        }
        all
    }

    /// Gives blocks to gangs. Returns those that begin now.
    pub fn place(&mut self, seats: &[Padded<Seat>], rooms: &[Padded<Room>]) -> Vec<Arc<Gang>> {
        let mut ready = Vec::new();
        if self.waiting.is_empty() {
            self.place_new(seats, rooms, &mut ready);
        }
        loop {
            let before = ready.len();
            while let Some(gang) = self.take(rooms) {
                self.waiting.push_back(gang);
            }
            self.place_waiting(seats, &mut ready);
            if ready.len() == before {
                return ready;
            }
        }
    }

    /// Places gangs that wait, the oldest first.
    fn place_waiting(&mut self, seats: &[Padded<Seat>], ready: &mut Vec<Arc<Gang>>) {
        while self.place_oldest(seats, ready) {}
        self.place_others(seats, ready);
        if self.passed >= self.size && self.reserve.is_none() {
            while self.place_oldest(seats, ready) {}
            self.place_others(seats, ready);
        }
    }

    /// Places gangs that come while none waits.
    fn place_new(&mut self, seats: &[Padded<Seat>], rooms: &[Padded<Room>], ready: &mut Vec<Arc<Gang>>) {
        while let Some(gang) = self.take(rooms) {
            match self.block(gang.dim, seats) {
                Some(block) => ready.push(placed(gang, block, seats)),
                None => {
                    self.waiting.push_back(gang);
                    return;
                }
            }
        }
    }

    /// Places the oldest gang that waits. Returns whether it did.
    fn place_oldest(&mut self, seats: &[Padded<Seat>], ready: &mut Vec<Arc<Gang>>) -> bool {
        let Some(dim) = self.waiting.front().map(|gang| gang.dim) else { return false };
        let block = if self.reserve.is_some() { self.gather() } else { self.block(dim, seats) };
        if let Some(block) = block {
            let gang = self.waiting.pop_front().expect("the oldest gang waits");
            self.passed = 0;
            ready.push(placed(gang, block, seats));
            return true;
        }
        if self.reserve.is_none() && self.passed >= self.size {
            self.reserve = Some(Reserve { target: emptiest(dim, seats), parts: Vec::new() });
            return self.place_oldest(seats, ready);
        }
        false
    }

    /// Places gangs that pass the oldest one.
    fn place_others(&mut self, seats: &[Padded<Seat>], ready: &mut Vec<Arc<Gang>>) {
        let mut at = 1;
        while at < self.waiting.len() && (self.passed < self.size || self.reserve.is_some()) {
            let Some(block) = self.block_apart(self.waiting[at].dim, seats) else {
                at += 1;
                continue;
            };
            let gang = self.waiting.remove(at).expect("there is a gang at this place");
            self.passed += 1;
            ready.push(placed(gang, block, seats));
        }
    }

    /// Takes a block: the one with the most idle workers, if it can.
    fn block(&self, dim: u32, seats: &[Padded<Seat>]) -> Option<Held> {
        let machine = &self.machine;
        let best = idlest(dim, self.reserve.as_ref().map(|reserve| reserve.target), seats)?;
        Held::take_at(machine.clone(), best).or_else(|_| Held::take_exact(machine.clone(), dim)).ok()
    }

    /// Takes a block that has no part of the reserved one.
    fn block_apart(&mut self, dim: u32, seats: &[Padded<Seat>]) -> Option<Held> {
        let block = self.block(dim, seats)?;
        match &self.reserve {
            Some(reserve) if reserve.target.overlaps(block.region()) => {
                // A part of the reserved block was released just now. The next call gets it.
                drop(block);
                None
            }
            _ => Some(block),
        }
    }

    /// Takes what is free of the reserved block. Returns the block once it is whole.
    fn gather(&mut self) -> Option<Held> {
        let Reserve { target, mut parts } = self.reserve.take()?;
        take_parts(&self.machine, target, &mut parts);
        join_parts(&mut parts);
        if parts.first().is_some_and(|part| part.region() == target) {
            return parts.pop();
        }
        self.reserve = Some(Reserve { target, parts });
        None
    }
}

/// Gives a gang its block, and makes the seats those of its members.
fn placed(gang: Arc<Gang>, block: Held, seats: &[Padded<Seat>]) -> Arc<Gang> {
    seats_of(block.region(), seats).iter().for_each(|seat| seat.prepare());
    gang.place(block);
    gang
}

fn seats_of(region: Region, seats: &[Padded<Seat>]) -> &[Padded<Seat>] {
    &seats[region.base as usize..][..region.len() as usize]
}

fn blocks(dim: u32, seats: &[Padded<Seat>]) -> impl Iterator<Item = Region> {
    (0..seats.len() as u64 >> dim).map(move |number| Region { base: number << dim, dim })
}

/// Returns the block that looks free and has the most idle workers, the first one of several. It
/// has no part of the reserved one. Seats say what was so a moment ago: only the machine knows
/// whether the block is free.
fn idlest(dim: u32, reserved: Option<Region>, seats: &[Padded<Seat>]) -> Option<Region> {
    let count = |region: &Region, is: fn(&Padded<Seat>) -> bool| {
        seats_of(*region, seats).iter().filter(|seat| is(seat)).count()
    };
    blocks(dim, seats).filter(|region| !reserved.is_some_and(|target| target.overlaps(*region))).max_by_key(
        |region| {
            let held = count(region, |seat| seat.is_held.load(SeqCst));
            (held == 0, count(region, |seat| seat.is_idle.load(Relaxed)), Reverse(region.base))
        },
    )
}

/// Returns the block in which gangs have the fewest workers.
fn emptiest(dim: u32, seats: &[Padded<Seat>]) -> Region {
    let held =
        |region: &Region| seats_of(*region, seats).iter().filter(|seat| seat.is_held.load(SeqCst)).count();
    blocks(dim, seats).min_by_key(held).expect("the gang is not wider than the pool")
}

/// Takes the free parts of a block, the large ones first.
fn take_parts(machine: &Arc<Machine>, region: Region, parts: &mut Vec<Held>) {
    let is_inside = |part: &Held| part.region().dim >= region.dim && part.region().overlaps(region);
    if parts.iter().any(is_inside) {
        return;
    }
    if let Ok(part) = Held::take_at(machine.clone(), region) {
        parts.push(part);
    } else if let Some((lower, upper)) = region.halves() {
        take_parts(machine, lower, parts);
        take_parts(machine, upper, parts);
    }
}

/// Joins the parts that are halves of one block, as long as there are such.
fn join_parts(parts: &mut Vec<Held>) {
    let mut at = 0;
    parts.sort_by_key(|part| part.region().base);
    while at + 1 < parts.len() {
        let upper = parts.remove(at + 1);
        let lower = parts.remove(at);
        match lower.join(upper) {
            Ok(joined) => {
                parts.insert(at, joined);
                at = at.saturating_sub(1);
            }
            Err((lower, upper)) => {
                parts.insert(at, upper);
                parts.insert(at, lower);
                at += 1;
            }
        }
    }
}

#[cfg(test)]
mod tests {
    use super::*;
    use crate::gang::Owners;
    use cubejobs::lanes::{Lane, Lanes, Sizes};

    const DIM: u32 = 3;

    /// A placer with its seats, and the gangs that run: the oldest first.
    struct Stage {
        placer: Placer,
        _lanes: Lanes<Box<Gang>>,
        lane: Lane<Box<Gang>>,
        seats: Vec<Padded<Seat>>,
        rooms: Vec<Padded<Room>>,
        running: VecDeque<Arc<Gang>>,
    }

    impl Stage {
        fn new() -> Self {
            let lanes = Lanes::new(Sizes { lanes: 1, workers: 1, capacity: 1024 }).unwrap();
            let placer = Placer::new(Machine::new(DIM).unwrap(), lanes.worker().unwrap(), 1);
            let seats = (0..1 << DIM).map(|_| Seat::new(DIM)).collect();
            let lane = lanes.lane().unwrap();
            let rooms = vec![Padded::default()];
            Stage { placer, _lanes: lanes, lane, seats, rooms, running: VecDeque::new() }
        }

        /// Submits gangs of this dimension.
        fn submit(&mut self, dim: u32, count: usize) {
            for _ in 0..count {
                let gang = Gang::new(dim, Owners::default(), Arc::new(|_| ()), Box::new(|_| ()));
                assert!(self.lane.submit(Box::new(gang), 0).is_ok());
            }
        }

        /// Places gangs. Returns the dimensions of those that begin.
        fn place(&mut self) -> Vec<u32> {
            let ready = self.placer.place(&self.seats, &self.rooms);
            let dims = ready.iter().map(|gang| gang.dim).collect();
            self.running.extend(ready);
            let blocks: Vec<_> =
                self.running.iter().map(|gang| (gang.base.load(SeqCst), gang.size())).collect();
            let is_apart = |at: usize| {
                let (base, size) = blocks[at];
                blocks[at + 1..].iter().all(|(other, most)| base + size <= *other || other + most <= base)
            };
            assert!((0..blocks.len()).all(is_apart), "{blocks:?} overlap");
            dims
        }

        /// Ends the oldest gang that runs, and places others.
        fn end_one(&mut self) -> Vec<u32> {
            let gang = self.running.pop_front().unwrap();
            let base = gang.base.load(SeqCst);
            self.seats[base..base + gang.size()].iter().for_each(|seat| seat.clear(false));
            gang.finish()();
            self.place()
        }
    }

    #[test]
    fn gangs_take_all_that_is_free() {
        let mut stage = Stage::new();
        stage.submit(1, 5);
        assert_eq!(stage.place(), [1; 4]);
        assert_eq!(stage.place(), []);
        assert_eq!(stage.end_one(), [1]);
        assert_eq!(stage.end_one(), []);
    }

    #[test]
    fn the_oldest_gang_gets_a_reserved_block() {
        let mut stage = Stage::new();
        stage.submit(1, 4);
        assert_eq!(stage.place(), [1; 4]);
        stage.submit(DIM, 1);
        stage.submit(1, 100);
        // As many pass as there are workers. The gangs that run then end, and nobody passes.
        let begun: Vec<_> = (0..8).map(|_| stage.end_one()).collect();
        assert_eq!(begun, vec![vec![1]; 8]);
        let begun: Vec<_> = (0..4).map(|_| stage.end_one()).collect();
        assert_eq!(begun, [vec![], vec![], vec![], vec![DIM]]);
        assert_eq!(stage.end_one(), [1; 4]);
    }

    #[test]
    fn others_pass_beside_a_reserved_block() {
        let mut stage = Stage::new();
        stage.submit(0, 8);
        assert_eq!(stage.place(), [0; 8]);
        stage.submit(2, 1);
        stage.submit(0, 100);
        let begun: Vec<_> = (0..8).map(|_| stage.end_one()).collect();
        assert_eq!(begun, vec![vec![0]; 8]);
        // The lower half is reserved. Others pass in the upper one.
        stage.running.make_contiguous().sort_by_key(|gang| Reverse(gang.base.load(SeqCst)));
        let begun: Vec<_> = (0..4).map(|_| stage.end_one()).collect();
        assert_eq!(begun, vec![vec![0]; 4]);
        let begun: Vec<_> = (0..4).map(|_| stage.end_one()).collect();
        assert_eq!(begun, [vec![], vec![], vec![], vec![2]]);
    }

    #[test]
    fn what_is_given_up_is_free() {
        let mut stage = Stage::new();
        stage.submit(0, 8);
        stage.place();
        stage.submit(3, 3);
        stage.submit(0, 9);
        (0..10).for_each(|_| drop(stage.end_one()));
        assert!(stage.placer.reserve.is_some());
        let waiting = stage.placer.give_up(&stage.rooms).len();
        assert_eq!(waiting + stage.running.len() + 10, 20);
        while !stage.running.is_empty() {
            stage.end_one();
        }
        assert_eq!(stage.placer.machine.occupancy().held, 0);
    }
}
