//! A self-test of the Rust package: one number that depends on the answer of each of 300,000 calls. It
//! must be the same on each processor, in each form of the package.

use cubejobs::lanes::{Lanes, Sizes};
use cubejobs::plan::{Forecast, Options, Planner, Request, Ticket};
use cubejobs::regions::{Block, Machine};
use cubejobs::rounds::{Collective, Shape};
use cubejobs::Region;

const BLOCK_STEPS: u64 = 200_000;
const LANE_STEPS: u64 = 50_000;
const PLAN_STEPS: u64 = 50_000;

/// The hash of Fowler, Noll and Vo, and the random numbers of Marsaglia.
struct Walk {
    hash: u64,
    state: u64,
}

impl Walk {
    fn mix(&mut self, answer: u64) {
        self.hash = (self.hash ^ answer).wrapping_mul(0x100_0000_01b3);
    }

    fn below(&mut self, bound: u64) -> u64 {
        self.state ^= self.state << 13;
        self.state ^= self.state >> 7;
        self.state ^= self.state << 17;
        (self.state >> 11) % bound
    }

    fn mix_all(&mut self, answers: &[u64]) {
        answers.iter().for_each(|it| self.mix(*it));
    }
}

/// Takes, names, splits and releases blocks of machines of each dimension from 0 to 12.
fn blocks(walk: &mut Walk) {
    for dim in 0..=12u32 {
        let machine = Machine::new(dim).unwrap();
        let mut held: Vec<Block<&Machine>> = Vec::new();
        for _ in 0..BLOCK_STEPS / 13 {
            let k = walk.below(u64::from(dim) + 2) as u32;
            let base = walk.below(1 << dim);
            let taken = match walk.below(5) {
                0 => machine.take(k),
                1 => machine.take_exact(k),
                2 => machine.take_at(Region { base, dim: k }),
                kind => {
                    if held.is_empty() {
                        continue;
                    }
                    let block = held.swap_remove(walk.below(held.len() as u64) as usize);
                    if kind == 3 {
                        match block.split() {
                            Ok((lower, upper)) => held.extend([lower, upper]),
                            Err(block) => held.push(block),
                        }
                    }
                    continue;
                }
            };
            match taken {
                Ok(block) => {
                    walk.mix_all(&[block.region().base, u64::from(block.region().dim)]);
                    held.push(block);
                }
                Err(refused) => walk.mix(1000 + refused as u64),
            }
        }
        let occupancy = machine.occupancy();
        walk.mix(occupancy.held);
        walk.mix_all(&occupancy.free[..=dim as usize]);
    }
}

/// Submits and takes jobs of three lanes, and takes what is left.
fn lanes(walk: &mut Walk) {
    let lanes = Lanes::<u64>::new(Sizes { lanes: 3, workers: 2, capacity: 7 }).unwrap();
    let mut producers: Vec<_> = (0..3).map(|_| lanes.lane().unwrap()).collect();
    let mut workers: Vec<_> = (0..2).map(|_| lanes.worker().unwrap()).collect();
    for step in 0..LANE_STEPS {
        let (lane, worker) = (walk.below(3) as usize, walk.below(2) as usize);
        if walk.below(2) == 0 {
            match producers[lane].submit(step, lane as u32) {
                Ok(accepted) => walk.mix(accepted.seq),
                Err(_) => walk.mix(2000),
            }
        } else {
            match workers[worker].take_any(lane as u32) {
                Ok(job) => walk.mix_all(&[u64::from(job.lane), job.seq, u64::from(job.dim), job.payload]),
                Err(refused) => walk.mix(3000 + refused as u64),
            }
        }
    }
    lanes.close();
    drop((producers, workers));
    for job in lanes.finish().ok().unwrap() {
        walk.mix(job.payload);
    }
}

/// Makes all messages of each shape on up to 2^6 ranks.
fn rounds(walk: &mut Walk) {
    for shape in [Shape::Broadcast, Shape::Reduce, Shape::AllReduce, Shape::Scan] {
        for k in 0..=6 {
            let collective = Collective::new(shape, k, 0).unwrap();
            for message in collective.messages() {
                walk.mix_all(&[u64::from(message.round), message.from, message.to]);
            }
        }
    }
}

/// Submits jobs to planners of each dimension from 0 to 9, ends them, and asks of them.
fn plans(walk: &mut Walk) {
    for dim in 0..10 {
        let mut planner = Planner::<u64>::new(Options::new(dim, 100).patience(2)).unwrap();
        let (mut tickets, mut now): (Vec<Ticket>, u64) = (Vec::new(), 0);
        for step in 0..PLAN_STEPS / 10 {
            now += walk.below(5);
            if walk.below(3) > 0 {
                let (processors, estimate) = (walk.below(1 << dim) + walk.below(2), walk.below(40));
                let request = Request::new(processors as u32).estimate(estimate).class(walk.below(9) as u8);
                match planner.submit(request, step) {
                    Ok(ticket) => tickets.push(ticket),
                    Err(refused) => walk.mix(1000 + refused.reason as u64),
                }
            } else if !tickets.is_empty() {
                let ticket = tickets[walk.below(tickets.len() as u64) as usize];
                let ended = if walk.below(3) > 0 { planner.finish(ticket) } else { planner.cancel(ticket) };
                walk.mix(ended.unwrap_or_else(|refused| 2000 + refused as u64));
            }
            while let Some(start) = planner.next(now).unwrap() {
                walk.mix_all(&[start.base, start.dim.into(), start.end.unwrap_or(0), planner.jobs().count() as u64]);
            }
            match tickets.last().and_then(|it| planner.forecast(*it)) {
                Some(Forecast::Reserved { region, promise }) => walk.mix_all(&[region.base, promise.unwrap_or(1)]),
                Some(Forecast::Waits { before }) => walk.mix(before),
                found => walk.mix(u64::from(found.is_some())),
            }
        }
        walk.mix(planner.counts().largest.into());
    }
}

#[no_mangle]
pub extern "C" fn selftest() -> u64 {
    let mut walk = Walk { hash: 0xcbf2_9ce4_8422_2325, state: 88_172_645_463_325_252 };
    blocks(&mut walk);
    lanes(&mut walk);
    rounds(&mut walk);
    plans(&mut walk);
    walk.hash
}

#[allow(dead_code)]
fn main() {
    println!("{}", selftest());
}
