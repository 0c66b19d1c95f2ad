//! Times a take with its release through the guards of the Rust package, in turn: a guard that borrows the machine, one
//! that shares it by `Arc`, and exact first fit behind a `Mutex`. The blocks have 1 to 8 of 1,024 processors. It prints
//! the median nanoseconds of a turn of any thread, on the clock, with the least in brackets: `cargo run --release`.

use cubejobs::fit::FirstFit;
use cubejobs::regions::{Held, Machine};
use std::sync::{Arc, Mutex};
use std::thread;
use std::time::Instant;

const DIM: u32 = 10;
const TURNS: u32 = 200_000;
const ROUNDS: usize = 15;

/// Makes turns on several threads, and returns the nanoseconds of one. A turn gets a number, and returns whether it took
/// a block.
fn time(threads: u32, turn: impl Fn(u32) -> bool + Sync) -> f64 {
    let start = Instant::now();
    thread::scope(|scope| {
        for _ in 0..threads {
            scope.spawn(|| {
                let taken = (0..TURNS).filter(|number| turn(*number)).count();
                assert!(taken > 0, "no take was granted");
            });
        }
    });
    start.elapsed().as_secs_f64() * 1e9 / f64::from(TURNS * threads)
}

fn main() {
    let machine = Machine::new(DIM).unwrap();
    let shared = Arc::new(Machine::new(DIM).unwrap());
    let locked = Mutex::new(FirstFit::new(DIM).unwrap());
    for threads in [1, 4] {
        let mut times = [const { Vec::new() }; 3];
        for _ in 0..ROUNDS {
            times[0].push(time(threads, |number| machine.take(number % 4).is_ok()));
            times[1].push(time(threads, |number| Held::take(shared.clone(), number % 4).is_ok()));
            times[2].push(time(threads, |number| {
                let taken = locked.lock().unwrap().take(number % 4);
                taken.is_ok_and(|block| locked.lock().unwrap().release(block).is_ok())
            }));
        }
        for (name, times) in ["borrowed guard", "shared guard", "first fit, mutex"].iter().zip(&mut times) {
            times.sort_by(f64::total_cmp);
            println!("{threads} threads, {name}: {:.0} ({:.0}) ns", times[ROUNDS / 2], times[0]);
        }
    }
}
