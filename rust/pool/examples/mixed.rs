//! A mixed load: 100,000 small jobs and 300 gangs, of which 30 fail, in one pool.

use cubejobs_pool::{Group, Pool};
use std::error::Error;
use std::panic::resume_unwind;
use std::sync::atomic::{AtomicUsize, Ordering::SeqCst};
use std::thread;
use std::time::Instant;

const SMALL: usize = 100_000;
const GANGS: usize = 300;

/// Adds up the squares of the numbers below 1,000, each member a part of them. One member in ten
/// gangs fails half way: then all of its gang end.
fn sum_of_squares(group: &Group<'_>, number: usize) -> u64 {
    let part = (group.rank() as u64..1_000).step_by(group.size());
    let squares: u64 = part.map(|it| it * it).sum();
    group.barrier();
    if number % 10 == 0 && group.rank() == group.size() - 1 {
        resume_unwind(Box::new(number));
    }
    group.all_reduce(squares, |a, b| a + b)
}

fn main() -> Result<(), Box<dyn Error>> {
    let pool = Pool::builder().workers_log2(3).build()?;
    let start = Instant::now();
    let ran = AtomicUsize::new(0);
    let (mut sums, mut failed) = (0, 0);
    thread::scope(|threads| {
        threads.spawn(|| {
            pool.scope(|scope| {
                for _ in 0..SMALL {
                    scope.detach(|| {
                        ran.fetch_add(1, SeqCst);
                    });
                }
            });
        });
        let gangs: Vec<_> = (0..GANGS)
            .map(|number| pool.submit(number as u32 % 4, move |group| sum_of_squares(group, number)))
            .collect();
        for (number, gang) in gangs.into_iter().enumerate() {
            let ticket = gang.expect("a thread that is no worker waits for room");
            match ticket.join_all() {
                Ok(all) => sums += usize::from(all.iter().all(|sum| *sum == 332_833_500)),
                Err(payload) => failed += usize::from(payload.downcast_ref() == Some(&number)),
            }
        }
    });
    let time = start.elapsed();
    println!(
        "{} small jobs ran, {sums} gangs have their sum, {failed} failed, in {time:.0?}",
        ran.into_inner()
    );
    Ok(())
}
