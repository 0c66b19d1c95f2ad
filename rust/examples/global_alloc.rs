//! An allocator for the whole program: memory of up to 64 KiB is a block of a machine, in an arena
//! of 4 MiB. All other memory is the system's.
//!
//! A `dealloc` has an address and no guard. So `alloc` makes its guard a region, and `dealloc`
//! makes a guard of the region again, by the address and the size.
//!
//! # A warning
//!
//! Calls of a machine may allocate, and this allocator must not call itself for that. Over the
//! libraries they use `malloc`. As plain Rust they use the allocator of the program, which is this
//! one: it would wait for itself without end. Two rules prevent that, in both forms. The machine is
//! opened before it is used, and until then all memory is the system's. And a thread that is inside
//! a call of the machine gets memory of the system.

use cubejobs::regions::{Block, Machine};
use cubejobs::Region;
use std::alloc::{GlobalAlloc, Layout, System};
use std::cell::{Cell, UnsafeCell};
use std::sync::OnceLock;
use std::thread;

/// The bytes of a processor of the machine, and the dimensions of the machine and of a block.
pub const UNIT: usize = 64;
pub const DIM: u32 = 16;
pub const MAX_BLOCK_DIM: u32 = 10;
/// The largest alignment that an address in the arena has by its number.
pub const ALIGN: usize = 4096;

#[repr(align(4096))]
struct Memory(UnsafeCell<[u8; UNIT << DIM]>);

// SAFETY: the memory is given out in blocks, and blocks that are held never overlap.
unsafe impl Sync for Memory {}

static MEMORY: Memory = Memory(UnsafeCell::new([0; UNIT << DIM]));
pub static MACHINE: OnceLock<Machine> = OnceLock::new();

thread_local! {
    // It has no destructor, so it is there for as long as the thread.
    static IS_INSIDE: Cell<bool> = const { Cell::new(false) };
}

/// Makes a call of the machine. Returns `None` if the machine is not open, or if this thread is
/// inside another call of it.
pub fn inside<T>(call: impl FnOnce(&'static Machine) -> T) -> Option<T> {
    let machine = MACHINE.get()?;
    if IS_INSIDE.replace(true) {
        return None;
    }
    let result = call(machine);
    IS_INSIDE.set(false);
    Some(result)
}

/// Returns the dimension of a block for this memory, unless it is too large.
#[must_use]
pub fn dim_of(layout: Layout) -> Option<u32> {
    // A block is aligned to its size.
    let units = layout.size().max(layout.align()).div_ceil(UNIT);
    let dim = units.checked_next_power_of_two()?.trailing_zeros();
    (dim <= MAX_BLOCK_DIM && layout.align() <= ALIGN).then_some(dim)
}

/// Returns the number of the processor at an address, if the address is in the arena.
pub fn processor_at(at: *mut u8) -> Option<u64> {
    let place = at.addr().checked_sub(MEMORY.0.get().addr())? / UNIT;
    (place < 1 << DIM).then_some(place as u64)
}

struct Arena;

// SAFETY: memory of the arena is a held block: large enough, aligned, and nobody else's. Other
// memory is the system's, by the same layout. No call panics.
unsafe impl GlobalAlloc for Arena {
    unsafe fn alloc(&self, layout: Layout) -> *mut u8 {
        let take = |dim| inside(|machine| machine.take(dim).ok().map(Block::into_raw)).flatten();
        match dim_of(layout).and_then(take) {
            // SAFETY: the machine has as many processors as the arena has units.
            Some(region) => unsafe { MEMORY.0.get().cast::<u8>().add(region.base as usize * UNIT) },
            // SAFETY: as the caller promises.
            None => unsafe { System.alloc(layout) },
        }
    }

    unsafe fn dealloc(&self, at: *mut u8, layout: Layout) {
        match (processor_at(at), dim_of(layout)) {
            (Some(base), Some(dim)) => {
                let region = Region { base, dim };
                // SAFETY: `alloc` made this region of a guard, and the memory is given back once.
                // Inside a call of the machine no memory of the arena is given back.
                inside(|machine| drop(unsafe { Block::from_raw(machine, region) }));
            }
            // SAFETY: the memory is not of the arena, so it is the system's.
            _ => unsafe { System.dealloc(at, layout) },
        }
    }
}

#[global_allocator]
static ARENA: Arena = Arena;

/// Makes boxes and vectors of all sizes in some threads, and checks what is in them.
fn work() -> u64 {
    let threads: [_; 4] = std::array::from_fn(|number| {
        thread::spawn(move || {
            let mut sum = 0;
            let mut kept: Vec<Vec<u8>> = Vec::new();
            for turn in 0..10_000_usize {
                let byte = (number * 31 + turn) as u8;
                kept.push(vec![byte; 1 + turn * 7 % 3000]);
                if kept.len() == 20 {
                    let old = kept.swap_remove(turn % 20);
                    assert!(old.iter().all(|it| *it == old[0]), "memory has two owners");
                    sum += old.len() as u64;
                }
            }
            sum + kept.iter().map(|it| it.len() as u64).sum::<u64>()
        })
    });
    threads.map(|it| it.join().expect("a thread does not fail")).iter().sum()
}

fn main() -> Result<(), Box<dyn std::error::Error>> {
    // The machine's own memory is the system's, since the machine is not there yet.
    let machine = Machine::new(DIM)?;
    let machine = MACHINE.get_or_init(|| machine);
    let small = Box::new([7_u8; 3 * UNIT]);
    assert!(processor_at(small.as_ptr().cast_mut()).is_some());
    let large = vec![7_u8; UNIT << (MAX_BLOCK_DIM + 1)];
    assert!(processor_at(large.as_ptr().cast_mut()).is_none());
    let bytes = work();
    // The threads have given all their memory back. The program keeps some of its own.
    let held = machine.occupancy().held;
    work();
    assert_eq!(machine.occupancy().held, held);
    println!("{bytes} bytes in vectors, and each had one owner");
    Ok(())
}
