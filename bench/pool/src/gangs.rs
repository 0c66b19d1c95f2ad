//! Gangs, and what their members call.

use crate::table::{each, table, System};
use crate::Peers;
use crossbeam_channel::Sender;
use cubejobs_pool::{Group, Pool, Ticket};
use std::collections::VecDeque;
use std::hint::black_box;
use std::sync::atomic::{AtomicUsize, Ordering::SeqCst};
use std::sync::{Arc, Barrier};
use std::thread;
use std::time::Instant;

/// How many gangs are submitted before the first of them is waited for.
const OUT: usize = 64;

type Call = Arc<dyn Fn(&Barrier) + Send + Sync>;

/// Four threads with a channel each, and one barrier: a team by hand.
struct Team(Vec<Sender<Call>>);

impl Team {
    fn new() -> Self {
        let barrier = Arc::new(Barrier::new(4));
        let member = |_| {
            let (sender, calls) = crossbeam_channel::bounded::<Call>(1024);
            let barrier = barrier.clone();
            thread::spawn(move || calls.into_iter().for_each(|call| call(&barrier)));
            sender
        };
        Team((0..4).map(member).collect())
    }

    fn run(&self, gangs: usize, barriers: usize) -> f64 {
        let done = Arc::new(AtomicUsize::new(0));
        let start = Instant::now();
        for gang in 0..gangs {
            while gang * 4 > done.load(SeqCst) + OUT * 4 {
                thread::yield_now();
            }
            let done = done.clone();
            let call: Call = Arc::new(move |barrier: &Barrier| {
                (0..barriers).for_each(|_| drop(barrier.wait()));
                done.fetch_add(1, SeqCst);
            });
            self.0.iter().for_each(|sender| sender.send(call.clone()).unwrap());
        }
        while done.load(SeqCst) < gangs * 4 {
            thread::yield_now();
        }
        each(start, gangs) / 1000.0
    }
}

fn by_pool(pool: &Pool, gangs: usize, barriers: usize) -> f64 {
    let start = Instant::now();
    let mut tickets: VecDeque<Ticket<()>> = VecDeque::new();
    for _ in 0..gangs {
        let gang = move |group: &Group<'_>| (0..barriers).for_each(|_| group.barrier());
        tickets.push_back(pool.submit(2, gang).unwrap());
        if tickets.len() == OUT {
            tickets.drain(..OUT / 2).for_each(|ticket| ticket.join().unwrap());
        }
    }
    tickets.into_iter().for_each(|ticket| ticket.join().unwrap());
    each(start, gangs) / 1000.0
}

/// Calls in a group, with the nanoseconds of one at the member of rank 0.
fn inside(pool: &Pool, dim: u32, call: impl Fn(&Group<'_>) + Send + Sync) -> f64 {
    let calls = 5_000;
    let time = |group: &Group<'_>| {
        let start = Instant::now();
        (0..calls).for_each(|_| call(group));
        each(start, calls)
    };
    pool.run(dim, time)[0]
}

pub fn measure(peers: &Peers, rounds: usize) {
    let Peers { rayon, pool, .. } = peers;
    let team = Team::new();
    for (barriers, gangs) in [(1, 5_000), (20, 1_000)] {
        let by_rayon = move || {
            let barrier = Barrier::new(4);
            let start = Instant::now();
            let member = || (0..barriers).for_each(|_| drop(barrier.wait()));
            (0..gangs).for_each(|_| drop(rayon.broadcast(|_| member())));
            each(start, gangs) / 1000.0
        };
        let systems: Vec<System<'_>> = vec![
            ("a team by hand, std's Barrier", None, Box::new(|| team.run(gangs, barriers))),
            ("pool: submit", (barriers > 1).then_some(0.9), Box::new(|| by_pool(pool, gangs, barriers))),
            ("rayon: broadcast, std's Barrier", None, Box::new(by_rayon)),
        ];
        table(&format!("gangs of 4 with {barriers} barriers, us a gang"), rounds, systems);
    }
}

pub fn measure_inside(rounds: usize) {
    let looks = std::env::var("LOOKS").ok().and_then(|it| it.parse().ok()).unwrap_or(30);
    let pool = Pool::builder().workers_log2(4).looks(looks).build().unwrap();
    for dim in 1..=4 {
        let barrier = Barrier::new(1 << dim);
        let pool = &pool;
        let systems: Vec<System<'_>> = vec![
            ("std's Barrier", None, Box::new(|| inside(pool, dim, |_| drop(barrier.wait())))),
            ("barrier", Some(1.0), Box::new(move || inside(pool, dim, |group| group.barrier()))),
            (
                "exchange of a word",
                Some(1.0),
                Box::new(move || {
                    inside(pool, dim, |group| {
                        black_box(group.exchange(group.rank() ^ 1, 7_u64));
                    })
                }),
            ),
            (
                "all_reduce of a word",
                None,
                Box::new(move || {
                    inside(pool, dim, |group| {
                        black_box(group.all_reduce(7_u64, |a, b| a + b));
                    })
                }),
            ),
        ];
        table(&format!("in a group of {}, ns a call", 1 << dim), rounds, systems);
    }
}
