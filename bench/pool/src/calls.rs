//! The calls into the proved libraries alone, on one thread.

use crate::table::{each, load, median};
use cubejobs::lanes::{Lanes, Sizes};
use cubejobs::regions::Machine;
use std::sync::Mutex;
use std::time::Instant;

const CALLS: usize = 100_000;

fn show(name: &str, rounds: usize, mut call: impl FnMut()) {
    let mut times: Vec<f64> = (0..rounds)
        .map(|_| {
            let start = Instant::now();
            (0..CALLS).for_each(|_| call());
            each(start, CALLS)
        })
        .collect();
    let middle = median(&mut times);
    println!("  {name:40} least {:7.1}  median {middle:7.1}", times[0]);
}

pub fn measure(rounds: usize) {
    println!("\ncalls of the libraries on one thread, ns a call (load {})", load());
    for (name, count) in [("4 workers", 4), ("64 workers", 64)] {
        let sizes = Sizes { lanes: 5 + count, workers: count, capacity: 1024 };
        let lanes = Lanes::<u64>::new(sizes).unwrap();
        let mut worker = lanes.worker().unwrap();
        let (mut own, shared) = (lanes.lane().unwrap(), Mutex::new(lanes.lane().unwrap()));
        println!("  lanes of {name}:");
        show("submit, with the wake, and find", rounds, || {
            own.submit(7, 0).unwrap();
            let _ = worker.find(0);
        });
        show("submit to a lane under a lock, and find", rounds, || {
            shared.lock().unwrap().submit(7, 0).unwrap();
            let _ = worker.find(1);
        });
        show("submit and take", rounds, || {
            own.submit(7, 0).unwrap();
            worker.take(0).unwrap();
        });
        show("take of no lane's job", rounds, || {
            let _ = worker.take_any(0);
        });
    }
    let machine = Machine::new(6).unwrap();
    show("a block of 4 of 64, taken and released", rounds, || drop(machine.take_exact(2).unwrap()));
}
