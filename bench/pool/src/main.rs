//! Measures the pool beside rayon, a channel of crossbeam, and teams by hand. Names of parts may
//! follow `cargo run --release`. The variable `ROUNDS` is the number of rounds, 15 without it.
//! `LOOKS` is how often a member looks before it sleeps, 30 without it.
//!
//! rayon and crossbeam are Debian's packages librust-rayon-dev and librust-crossbeam-channel-dev.
//! Their sources are in /usr/share/cargo/registry, so a build needs no network: `--offline`.
//!
//! A copy of this folder in `bench` of another checkout measures the pool of that one. One program
//! cannot have both pools, since they link the same library for C.

mod calls;
mod gangs;
mod ones;
mod recursion;
mod start;
mod streams;
mod table;

use crossbeam_channel::Sender;
use cubejobs_pool::Pool;
use std::env;
use std::thread;

type Boxed = Box<dyn FnOnce() + Send>;

/// What is measured: each has four threads.
pub struct Peers {
    rayon: rayon::ThreadPool,
    pool: Pool,
    channel: Sender<Boxed>,
}

fn peers() -> Peers {
    let (channel, jobs) = crossbeam_channel::bounded::<Boxed>(1024);
    for _ in 0..4 {
        let jobs = jobs.clone();
        thread::spawn(move || jobs.into_iter().for_each(|job| job()));
    }
    let rayon = rayon::ThreadPoolBuilder::new().num_threads(4).build().unwrap();
    Peers { rayon, pool: Pool::builder().workers_log2(2).build().unwrap(), channel }
}

fn main() {
    let parts: Vec<String> = env::args().skip(1).collect();
    let rounds = env::var("ROUNDS").ok().and_then(|it| it.parse().ok()).unwrap_or(15);
    let wants = |name: &str| parts.is_empty() || parts.iter().any(|part| part == name);
    let peers = peers();
    if wants("calls") {
        calls::measure(rounds);
    }
    if wants("ones") {
        ones::measure(&peers, rounds);
    }
    if wants("busy") {
        ones::measure_busy(&peers, rounds);
    }
    if wants("gangs") {
        gangs::measure(&peers, rounds);
    }
    if wants("inside") {
        gangs::measure_inside(rounds);
    }
    if wants("recursion") {
        recursion::measure(&peers.rayon, &peers.pool, rounds);
    }
    if wants("start") {
        start::measure(&peers, rounds);
    }
    if wants("idle") {
        start::measure_idle();
    }
    if wants("streams") {
        streams::measure();
    }
}
