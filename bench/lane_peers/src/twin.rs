//! Bounded lanes in one slice of atomic words: the steps of the crate `lanes`, in plain Rust.

use std::sync::atomic::{AtomicU64, Ordering::SeqCst};

const CLOSED: u64 = 1 << 63;
const TAIL: usize = 16;
const HEAD: usize = 32;
const CELLS: usize = 48;

pub struct Lanes {
    words: Box<[AtomicU64]>,
    lanes: usize,
    capacity: u64,
}

/// A producer's lane, and how many jobs were taken when it last looked.
pub struct Lane {
    number: usize,
    taken: u64,
}

/// A consumer, and how many jobs of each lane were accepted when it last looked.
pub struct Worker {
    accepted: Vec<u64>,
}

#[derive(Clone, Copy)]
pub struct Job {
    pub seq: u64,
    pub payload: u64,
    pub dim: u32,
}

impl Lanes {
    pub fn open(lanes: usize, capacity: u64) -> Lanes {
        let count = lanes * (CELLS + 2 * capacity as usize);
        Lanes { words: (0..count).map(|_| AtomicU64::new(0)).collect(), lanes, capacity }
    }

    pub fn lane(&self, number: usize) -> Lane {
        Lane { number, taken: 0 }
    }

    pub fn worker(&self) -> Worker {
        Worker { accepted: vec![0; self.lanes] }
    }

    fn start(&self, lane: usize) -> usize {
        lane * (CELLS + 2 * self.capacity as usize)
    }

    fn cell(&self, start: usize, seq: u64) -> usize {
        start + CELLS + 2 * (seq % self.capacity) as usize
    }

    /// Returns the number of the job, or whether the lane is closed.
    #[inline(never)]
    pub fn submit(&self, lane: &mut Lane, payload: u64, dim: u32) -> Result<u64, bool> {
        let start = self.start(lane.number);
        let tail = self.words[start + TAIL].load(SeqCst);
        if tail >= CLOSED {
            return Err(true);
        }
        if tail - lane.taken >= self.capacity {
            lane.taken = self.words[start + HEAD].load(SeqCst);
            if tail - lane.taken >= self.capacity {
                return Err(false);
            }
        }
        let cell = self.cell(start, tail);
        self.words[cell].store(payload, SeqCst);
        self.words[cell + 1].store(dim.into(), SeqCst);
        let counted = self.words[start + TAIL].compare_exchange(tail, tail + 1, SeqCst, SeqCst);
        counted.map_err(|_| true)
    }

    /// Returns the job at the head of the lane, unless there is none or another consumer took it.
    #[inline(never)]
    pub fn take(&self, worker: &mut Worker, lane: usize) -> Option<Job> {
        let start = self.start(lane);
        let head = self.words[start + HEAD].load(SeqCst);
        if head >= worker.accepted[lane] {
            let tail = self.words[start + TAIL].load(SeqCst) & !CLOSED;
            if tail == head {
                return None;
            }
            worker.accepted[lane] = tail;
        }
        let cell = self.cell(start, head);
        let payload = self.words[cell].load(SeqCst);
        let dim = self.words[cell + 1].load(SeqCst) as u32;
        let taken = self.words[start + HEAD].compare_exchange(head, head + 1, SeqCst, SeqCst);
        taken.ok().map(|seq| Job { seq, payload, dim })
    }

    /// Takes a job of the first lane that has one, beginning at this one. Returns it with its lane.
    pub fn take_any(&self, worker: &mut Worker, from: usize) -> Option<(usize, Job)> {
        let lanes = (from..self.lanes).chain(0..from);
        lanes.into_iter().find_map(|lane| self.take(worker, lane).map(|job| (lane, job)))
    }
}
