//! Jobs of one worker.

use crate::table::{each, table, work, System};
use crate::Peers;
use std::sync::atomic::{AtomicUsize, Ordering::SeqCst};
use std::sync::Arc;
use std::thread;
use std::time::Instant;

/// Waits until a counter has this value.
fn wait_for(count: &AtomicUsize, total: usize) {
    while count.load(SeqCst) < total {
        thread::yield_now();
    }
}

/// Submits each of the jobs from this thread. Returns the nanoseconds of one.
fn from_outside(total: usize, mut submit: impl FnMut(Arc<AtomicUsize>)) -> f64 {
    let count = Arc::new(AtomicUsize::new(0));
    let start = Instant::now();
    (0..total).for_each(|_| submit(count.clone()));
    wait_for(&count, total);
    each(start, total)
}

/// Submits the jobs from four threads. Returns the nanoseconds of one.
fn from_four(total: usize, submit: impl Fn(Arc<AtomicUsize>) + Sync) -> f64 {
    let count = Arc::new(AtomicUsize::new(0));
    let start = Instant::now();
    thread::scope(|threads| {
        for _ in 0..4 {
            threads.spawn(|| (0..total / 4).for_each(|_| submit(count.clone())));
        }
    });
    wait_for(&count, total / 4 * 4);
    each(start, total)
}

fn in_scopes(peers: &Peers, total: usize, steps: u32, bar: f64) -> Vec<System<'_>> {
    let Peers { rayon, pool, .. } = peers;
    let job = move || {
        work(steps);
    };
    vec![
        (
            "rayon: scope",
            None,
            Box::new(move || {
                let start = Instant::now();
                rayon.scope(|scope| (0..total).for_each(|_| scope.spawn(move |_| job())));
                each(start, total)
            }),
        ),
        (
            "pool: scope",
            Some(bar),
            Box::new(move || {
                let start = Instant::now();
                pool.scope(|scope| (0..total).for_each(|_| scope.detach(job)));
                each(start, total)
            }),
        ),
        (
            "pool: scope in a job",
            None,
            Box::new(move || {
                let start = Instant::now();
                let inner = move || pool.scope(|scope| (0..total).for_each(|_| scope.detach(job)));
                pool.scope(|scope| scope.detach(inner));
                each(start, total)
            }),
        ),
    ]
}

fn outside(peers: &Peers, total: usize, steps: u32, bar: f64) -> Vec<System<'_>> {
    let Peers { rayon, pool, channel } = peers;
    let job = move |count: Arc<AtomicUsize>| {
        move || {
            work(steps);
            count.fetch_add(1, SeqCst);
        }
    };
    let mut client = pool.client().unwrap();
    vec![
        ("rayon: spawn", None, Box::new(move || from_outside(total, |count| rayon.spawn(job(count))))),
        ("pool: detach", Some(bar), Box::new(move || from_outside(total, |count| pool.detach(job(count))))),
        (
            "pool: a client's detach",
            None,
            Box::new(move || from_outside(total, |count| client.detach(job(count)).unwrap())),
        ),
        (
            "crossbeam: channel of boxes",
            None,
            Box::new(move || from_outside(total, |count| channel.send(Box::new(job(count))).unwrap())),
        ),
    ]
}

fn by_four(peers: &Peers, total: usize) -> Vec<System<'_>> {
    let Peers { rayon, pool, channel } = peers;
    let job = move |count: Arc<AtomicUsize>| {
        move || {
            count.fetch_add(1, SeqCst);
        }
    };
    vec![
        ("rayon: spawn", None, Box::new(move || from_four(total, |count| rayon.spawn(job(count))))),
        ("pool: detach", None, Box::new(move || from_four(total, |count| pool.detach(job(count))))),
        (
            "crossbeam: channel of boxes",
            None,
            Box::new(move || from_four(total, |count| channel.send(Box::new(job(count))).unwrap())),
        ),
    ]
}

/// How many jobs there are.
const JOBS: usize = 1_000_000;

pub fn measure(peers: &Peers, rounds: usize) {
    table("10^6 empty jobs in a scope, ns a job", rounds, in_scopes(peers, JOBS, 0, 1.1));
    table("10^6 empty jobs from outside, ns a job", rounds, outside(peers, JOBS, 0, 0.9));
    table("10^6 empty jobs from four threads, ns a job", rounds, by_four(peers, JOBS));
}

pub fn measure_busy(peers: &Peers, rounds: usize) {
    table("10^6 jobs of about 1 us in a scope, ns a job", rounds, in_scopes(peers, JOBS, 500, 1.05));
    table("10^6 jobs of about 1 us from outside, ns a job", rounds, outside(peers, JOBS, 500, 1.05));
}
