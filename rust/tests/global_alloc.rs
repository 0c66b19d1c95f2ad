//! What the example of an allocator for the whole program says of itself. This program runs on it.

#[allow(dead_code)] // its `main` is not called
#[path = "../examples/global_alloc.rs"]
mod example;

use cubejobs::regions::Machine;
use example::{dim_of, inside, processor_at, ALIGN, DIM, MACHINE, MAX_BLOCK_DIM, UNIT};
use std::alloc::{alloc, dealloc, realloc, Layout};
use std::sync::Barrier;
use std::thread;

/// More threads than a machine has handles, so that each of these is opened.
const THREADS: u8 = 40;

fn is_in_arena(at: *mut u8) -> bool {
    processor_at(at).is_some()
}

/// Allocates memory of many sizes and alignments. Checks where it is, and that nobody else writes.
fn use_layouts(byte: u8) {
    let mut held = Vec::new();
    for align in [1, 8, 64, 256, 4096, 8192] {
        for size in [1, 63, 64, 65, 1000, 4096, 65_536, 65_537, 200_000] {
            let layout = Layout::from_size_align(size, align).unwrap();
            // SAFETY: no size is 0.
            let at = unsafe { alloc(layout) };
            assert!(!at.is_null() && at.addr() % align == 0, "{layout:?}");
            // A quick take may be refused, and then the memory is the system's.
            assert!(!is_in_arena(at) || (size <= UNIT << MAX_BLOCK_DIM && align <= ALIGN), "{layout:?}");
            // SAFETY: the memory has this size.
            unsafe { at.write_bytes(byte, size) };
            held.push((at, layout));
        }
    }
    for (at, layout) in held {
        let more = layout.size() * 2;
        // SAFETY: the memory is of this layout. It is written up to `size`, and is given back once.
        unsafe {
            let at = realloc(at, layout, more);
            let of_old = std::slice::from_raw_parts(at, layout.size());
            assert!(of_old.iter().all(|it| *it == byte), "memory of {byte} has two owners");
            dealloc(at, Layout::from_size_align(more, layout.align()).unwrap());
        }
    }
}

// One test, since the machine is that of the program.
#[test]
fn an_allocator_over_a_machine() {
    let before = Box::new([7_u8; 3 * UNIT]);
    assert!(!is_in_arena(before.as_ptr().cast_mut()), "memory before the open is the system's");
    let machine = Machine::new(DIM).unwrap();
    let machine = MACHINE.get_or_init(|| machine);
    drop(before);
    // Inside a call all memory is the system's, and outside it is of the arena.
    let in_call = inside(|_| Box::new([7_u8; 3 * UNIT])).unwrap();
    assert!(!is_in_arena(in_call.as_ptr().cast_mut()));
    let outside = Box::new([7_u8; 3 * UNIT]);
    assert!(is_in_arena(outside.as_ptr().cast_mut()));
    assert_eq!(dim_of(Layout::from_size_align(UNIT + 1, 1).unwrap()), Some(1));
    assert_eq!(dim_of(Layout::from_size_align(1, ALIGN).unwrap()), Some(6));
    assert_eq!(dim_of(Layout::from_size_align(usize::MAX / 2, 1).unwrap()), None);
    // The first calls of the threads open handles, which allocates in the form of plain Rust.
    let run = || {
        let all = Barrier::new(THREADS.into());
        thread::scope(|scope| {
            for byte in 0..THREADS {
                let all = &all;
                scope.spawn(move || {
                    all.wait();
                    use_layouts(byte);
                });
            }
        });
        machine.occupancy().held
    };
    // The thread of the test's harness keeps a little that it has taken meanwhile.
    let most = run() + u64::from(THREADS) / 2;
    assert!(run() <= most, "a thread has not given its memory back");
}
