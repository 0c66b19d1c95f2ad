//! The takes and releases of `cube_bench tree` as plain Rust without crates.
//!
//! `plain_tree MACHINE SIZES THREADS TURNS [times]`, where the machine is `words`, the status tree of
//! `cube_tree` with the same atomic steps by hand, or `mutex`, allocation bits with first fit under one
//! lock. Build it with `rustc --edition 2021 -O`.

use std::env;
use std::sync::atomic::AtomicU64;
use std::sync::atomic::Ordering::SeqCst;
use std::sync::Mutex;
use std::thread;
use std::time::Instant;

const DIM: u32 = 10;
const OCCUPIED: u64 = 1;
const LEFT: u64 = 2;
const RIGHT: u64 = 4;
const USE_BITS: u64 = 7;

fn mark_of(station: u32) -> u64 {
    1 << (8 + station)
}

/// What gives out regions: each is known by its node.
trait Machine: Sync {
    fn take(&self, station: u32, k: u32) -> Option<usize>;
    fn release(&self, station: u32, node: usize);
}

/// The status tree: the word of node `v` is `words[v]`.
struct Words {
    words: Vec<AtomicU64>,
}

impl Words {
    fn new() -> Self {
        let words = (0..2 << DIM).map(|_| AtomicU64::new(0)).collect();
        Words { words }
    }

    /// Takes the node, or rolls back.
    fn take_node(&self, station: u32, node: usize) -> bool {
        let found = self.words[node].load(SeqCst);
        if found & USE_BITS != 0 {
            return false;
        }
        let busy = USE_BITS;
        if self.words[node].compare_exchange(found, busy, SeqCst, SeqCst).is_err() {
            return false;
        }
        let mut child = node;
        while child > 1 {
            let at = child / 2;
            let side = if child % 2 == 0 { LEFT } else { RIGHT };
            self.words[at].fetch_and(USE_BITS, SeqCst);
            if self.words[at].fetch_or(side, SeqCst) & OCCUPIED != 0 {
                self.words[node].store(0, SeqCst);
                self.clear_path(station, node);
                return false;
            }
            child = at;
        }
        true
    }

    fn clear_path(&self, station: u32, node: usize) {
        let mut at = node;
        while at > 1 {
            at /= 2;
            if !self.clear_ancestor(station, at) {
                return;
            }
        }
    }

    /// Clears one ancestor: whether it became free by that.
    fn clear_ancestor(&self, station: u32, at: usize) -> bool {
        self.words[at].fetch_and(USE_BITS, SeqCst);
        let found = self.words[at].fetch_or(mark_of(station), SeqCst);
        if found & OCCUPIED != 0 {
            return false;
        }
        let marked = found | mark_of(station);
        let left_is_free = self.words[2 * at].load(SeqCst) & USE_BITS == 0;
        let right_is_free = self.words[2 * at + 1].load(SeqCst) & USE_BITS == 0;
        let mut cleared = marked & USE_BITS;
        if left_is_free {
            cleared &= !LEFT;
        }
        if right_is_free {
            cleared &= !RIGHT;
        }
        let won = self.words[at].compare_exchange(marked, cleared, SeqCst, SeqCst).is_ok();
        won && cleared & USE_BITS == 0
    }
}

impl Machine for Words {
    fn take(&self, station: u32, k: u32) -> Option<usize> {
        let nodes = 1 << (DIM - k);
        (nodes..2 * nodes).find(|&node| self.take_node(station, node))
    }

    fn release(&self, station: u32, node: usize) {
        self.words[node].store(0, SeqCst);
        self.clear_path(station, node);
    }
}

/// A bit for each processor under one lock.
struct Bits {
    taken: Mutex<[u64; 1 << (DIM - 6)]>,
}

// A region of dimension 5 and below lies in one word of the bits.
fn bits_of(base: usize, k: u32) -> (usize, u64) {
    let ones = u64::MAX >> (64 - (1 << k));
    (base / 64, ones << (base % 64))
}

impl Bits {
    fn new() -> Self {
        Bits {
            taken: Mutex::new([0; 1 << (DIM - 6)]),
        }
    }
}

impl Machine for Bits {
    fn take(&self, _station: u32, k: u32) -> Option<usize> {
        let nodes = 1 << (DIM - k);
        let mut taken = self.taken.lock().expect("no thread panics");
        let rank = (0..nodes).find(|rank| {
            let (word, bits) = bits_of(rank << k, k);
            taken[word] & bits == 0
        })?;
        let (word, bits) = bits_of(rank << k, k);
        taken[word] |= bits;
        Some(nodes + rank)
    }

    fn release(&self, _station: u32, node: usize) {
        let level = node.ilog2();
        let k = DIM - level;
        let (word, bits) = bits_of((node - (1 << level)) << k, k);
        let mut taken = self.taken.lock().expect("no thread panics");
        taken[word] &= !bits;
    }
}

#[derive(Clone, Copy)]
struct Run {
    is_mixed: bool,
    threads: u32,
    turns: u64,
    is_timed: bool,
}

/// A take and its release: whether it was given.
fn turn(machine: &impl Machine, run: Run, station: u32, index: u64) -> bool {
    let k = if run.is_mixed { (station % 6 + (index % 6) as u32) % 6 } else { 0 };
    match machine.take(station, k) {
        Some(node) => {
            machine.release(station, node);
            true
        }
        None => false,
    }
}

/// The turns of one station: how many takes were given, and the nanoseconds of each.
fn turns(machine: &impl Machine, run: Run, station: u32, times: &mut [u64]) -> u64 {
    let mut given = 0;
    if run.is_timed {
        for (index, time) in times.iter_mut().enumerate() {
            let start = Instant::now();
            given += u64::from(turn(machine, run, station, index as u64));
            *time = start.elapsed().as_nanos() as u64;
        }
    } else {
        for index in 0..run.turns {
            given += u64::from(turn(machine, run, station, index));
        }
    }
    given
}

fn measure(machine: &impl Machine, run: Run) {
    let places = if run.is_timed { run.turns as usize } else { 0 };
    let mut lanes: Vec<Vec<u64>> = (0..run.threads).map(|_| vec![0; places]).collect();
    let given: u64 = thread::scope(|scope| {
        let handles: Vec<_> = (0..)
            .zip(&mut lanes)
            .map(|(station, times)| scope.spawn(move || turns(machine, run, station, times)))
            .collect();
        handles.into_iter().map(|handle| handle.join().expect("no thread panics")).sum()
    });
    println!("{given}");
    let mut times = lanes.concat();
    times.sort_unstable();
    let count = times.len();
    if count > 0 {
        println!("{} {} {}", times[count / 2], times[count - 1 - count / 100], times[count - 1 - count / 1000]);
    }
}

fn main() {
    let words: Vec<String> = env::args().collect();
    let run = Run {
        is_mixed: words[2] == "mixed",
        threads: words[3].parse().expect("a number of threads"),
        turns: words[4].parse().expect("a number of turns"),
        is_timed: words.len() > 5,
    };
    match words[1].as_str() {
        "words" => measure(&Words::new(), run),
        "mutex" => measure(&Bits::new(), run),
        name => panic!("no machine is called {name}"),
    }
}
