//! Fork and join, as a recursion: the number of leaves of a binary tree.

use crate::table::{table, System};
use cubejobs_pool::Pool;
use std::fs;
use std::hint::black_box;
use std::time::Instant;

/// The tree has `2^DEPTH` leaves.
const DEPTH: u32 = 20;

/// A way to count the leaves of a tree of this depth. Trees of at most the second depth are counted
/// without a job.
type Count = fn(&Pool, u32, u32) -> u64;

fn alone(depth: u32) -> u64 {
    match black_box(depth) {
        0 => 1,
        depth => alone(depth - 1) + alone(depth - 1),
    }
}

fn by_rayon(depth: u32, least: u32) -> u64 {
    if depth <= least {
        return alone(depth);
    }
    let (left, right) = rayon::join(|| by_rayon(depth - 1, least), || by_rayon(depth - 1, least));
    left + right
}

fn by_scopes(pool: &Pool, depth: u32, least: u32) -> u64 {
    if depth <= least {
        return alone(depth);
    }
    let mut left = 0;
    let right = pool.scope(|scope| {
        scope.detach(|| left = by_scopes(pool, depth - 1, least));
        by_scopes(pool, depth - 1, least)
    });
    left + right
}

fn by_tickets(pool: &Pool, depth: u32, least: u32) -> u64 {
    if depth <= least {
        return alone(depth);
    }
    pool.scope(|scope| {
        let left = scope.spawn(|| by_tickets(pool, depth - 1, least));
        let right = by_tickets(pool, depth - 1, least);
        left.join().unwrap() + right
    })
}

/// Returns the microseconds of a call that counts the leaves of the whole tree.
fn time(count: impl FnOnce() -> u64) -> f64 {
    let start = Instant::now();
    assert_eq!(count(), 1 << DEPTH);
    start.elapsed().as_nanos() as f64 / 1000.0
}

/// Returns the time of a count that begins in a job of the pool.
fn in_job(pool: &Pool, count: Count, least: u32) -> f64 {
    time(|| pool.scope(|scope| scope.spawn(|| count(pool, DEPTH, least)).join().unwrap()))
}

/// Returns how many threads of pools there are. Spare threads stay until their pool is closed.
fn threads() -> usize {
    let tasks = fs::read_dir("/proc/self/task").unwrap().filter_map(Result::ok);
    let names = tasks.filter_map(|task| fs::read_to_string(task.path().join("comm")).ok());
    names.filter(|name| name.starts_with("gang-")).count()
}

fn show_threads(name: &str, count: Count, least: u32, rounds: usize) {
    let before = threads();
    let pool = Pool::builder().workers_log2(2).build().unwrap();
    for _ in 0..rounds {
        in_job(&pool, count, least);
    }
    println!("  {name:32} {} threads of a pool of 4 workers after {rounds} trees", threads() - before);
}

pub fn measure(rayon: &rayon::ThreadPool, pool: &Pool, rounds: usize) {
    for (least, title) in [(0, "a job at each inner node"), (10, "no job in trees of 2^10 leaves")] {
        let systems: Vec<System<'_>> = vec![
            ("rayon: join", None, Box::new(|| time(|| rayon.install(|| by_rayon(DEPTH, least))))),
            ("pool: a scope and detach", None, Box::new(|| in_job(pool, by_scopes, least))),
            ("pool: a scope and a ticket", None, Box::new(|| in_job(pool, by_tickets, least))),
            ("one thread", None, Box::new(|| time(|| alone(DEPTH)))),
        ];
        table(&format!("a tree of 2^{DEPTH} leaves, {title}, us a tree"), rounds, systems);
        show_threads("pool: a scope and detach", by_scopes, least, rounds);
        show_threads("pool: a scope and a ticket", by_tickets, least, rounds);
    }
}
