//! Threads wait for blocks of a machine that has room for a few of them. They send the guards to
//! one thread, which uses and releases them.

use cubejobs::regions::{Held, Machine};
use std::sync::mpsc::sync_channel;
use std::sync::Arc;
use std::thread;

const DIM: u32 = 4;
const THREADS: u32 = 8;
const BLOCKS: u32 = 500;

fn main() -> Result<(), Box<dyn std::error::Error>> {
    let machine = Arc::new(Machine::new(DIM)?);
    let (sender, receiver) = sync_channel(2);
    for number in 0..THREADS {
        let (machine, sender) = (machine.clone(), sender.clone());
        thread::spawn(move || {
            for turn in 0..BLOCKS {
                let block = Held::take_or_wait(machine.clone(), (number + turn) % (DIM + 1));
                sender.send(block.expect("the machine has such blocks")).expect("it is received");
            }
        });
    }
    drop(sender);
    let mut processors = 0;
    for block in receiver {
        processors += block.region().len();
    } // each guard is dropped here
    assert_eq!(machine.occupancy().held, 0);
    println!("{} blocks with {processors} processors in all", THREADS * BLOCKS);
    Ok(())
}
