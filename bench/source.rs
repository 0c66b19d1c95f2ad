//! Times calls of the Rust package, in nanoseconds. Each line is a row of calls and its time. `bench/source` compares
//! the times over the archives and over plain Rust.

use cubejobs::fit::FirstFit;
use cubejobs::lanes::{Lanes, Sizes};
use cubejobs::regions;
use cubejobs::rounds::{Collective, Shape};
use std::hint::black_box;
use std::time::Instant;

const CALLS: u32 = 20_000;
const TURNS: u32 = 15;

/// Prints the least time of a call, of several turns.
fn row(name: &str, mut call: impl FnMut(u32)) {
    let turn = |_| {
        let start = Instant::now();
        (0..CALLS).for_each(&mut call);
        start.elapsed().as_nanos() as f64 / f64::from(CALLS)
    };
    let least = (0..TURNS).map(turn).fold(f64::MAX, f64::min);
    println!("{name}\t{least}");
}

fn fit() {
    for dim in [12, 20] {
        let mut machine = FirstFit::new(dim).unwrap();
        row(&format!("first fit, n = {dim}: a pair of dimension 0 to 3"), |i| {
            let block = black_box(machine.take(i % 4).unwrap());
            machine.release(block).unwrap();
        });
        (0..31).for_each(|k| _ = machine.take(k % 7).unwrap());
        row(&format!("first fit, n = {dim}: a pair beside 31 blocks"), |i| {
            let block = black_box(machine.take(i % 7).unwrap());
            machine.release(block).unwrap();
        });
        row(&format!("first fit, n = {dim}: a refused take"), |_| {
            assert!(black_box(machine.take(dim)).is_err())
        });
    }
}

fn blocks() {
    let machine = regions::Machine::new(12).unwrap();
    row("regions, n = 12: a quick pair of dimension 0 to 3", |i| {
        drop(black_box(machine.take(i % 4).unwrap()))
    });
    row("regions, n = 12: a quick pair of dimension 7 to 9", |i| {
        drop(black_box(machine.take(7 + i % 3).unwrap()))
    });
    row("regions, n = 12: an exact pair of dimension 0 to 3", |i| {
        drop(black_box(machine.take_exact(i % 4).unwrap()))
    });
    let _held = machine.take(11).unwrap();
    row("regions, n = 12, half held: a quick pair", |i| drop(black_box(machine.take(i % 4).unwrap())));
    row("regions, n = 12, half held: a refused exact take", |_| {
        assert!(black_box(machine.take_exact(12)).is_err())
    });
    let machine = regions::Machine::new(20).unwrap();
    row("regions, n = 20: a quick pair of dimension 0 to 3", |i| {
        drop(black_box(machine.take(i % 4).unwrap()))
    });
}

fn jobs() {
    let sizes = Sizes { lanes: 4, workers: 2, capacity: 64 };
    let lanes = Lanes::<u64>::new(sizes).unwrap();
    let (mut lane, mut worker) = (lanes.lane().unwrap(), lanes.worker().unwrap());
    row("lanes: a submit and a take", |i| {
        lane.submit(i.into(), 0).unwrap();
        black_box(worker.take_any(0).unwrap());
    });
}

fn rounds() {
    let reduce = Collective::new(Shape::Reduce, 10, 3).unwrap();
    row("rounds: a step", |i| _ = black_box(reduce.step(u64::from(i % 1024), i % 10)));
    row("rounds: a message", |i| _ = black_box(reduce.message(u64::from(i % 1023))));
}

fn main() {
    fit();
    blocks();
    jobs();
    rounds();
}
