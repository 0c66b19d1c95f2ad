//! A plain model of the planner: its rules, with a list of jobs and no tree.

use cubejobs::Region;
use std::collections::BTreeMap;

/// The end that is not known.
pub const NEVER: u64 = u64::MAX;

/// A job that waits or runs. It has no block while it waits.
#[derive(Clone, Debug)]
pub struct Job {
    pub arrival: u64,
    pub processors: u32,
    pub dim: u32,
    pub class: u8,
    pub estimate: u64,
    passed: u64,
    pub block: Option<Region>,
    pub end: u64,
}

/// A planner of `2^dim` processors, for at most `most` jobs.
pub struct Model {
    pub dim: u32,
    pub most: usize,
    pub patience: u64,
    pub now: u64,
    pub arrivals: u64,
    /// The jobs by the number of those that were submitted before.
    pub jobs: BTreeMap<u64, Job>,
    /// The blocks out of service.
    pub out: Vec<Region>,
    /// The job with the reservation, and its block.
    pub reserved: Option<(u64, Region)>,
}

impl Model {
    pub fn new(dim: u32, most: usize, patience: u64) -> Self {
        let (jobs, out) = (BTreeMap::new(), Vec::new());
        Model { dim, most, patience, now: 0, arrivals: 0, jobs, out, reserved: None }
    }

    // ---- blocks

    fn whole(&self) -> Region {
        Region { base: 0, dim: self.dim }
    }

    pub fn is_block(&self, region: Region) -> bool {
        region.dim <= self.dim && region.base % region.len() == 0 && region.base < self.whole().len()
    }

    /// Returns the jobs that hold a part of a block.
    fn holders(&self, region: Region) -> impl Iterator<Item = &Job> {
        self.jobs.values().filter(move |job| job.block.is_some_and(|it| it.overlaps(region)))
    }

    fn is_usable(&self, region: Region) -> bool {
        !self.out.iter().any(|it| it.overlaps(region))
    }

    fn is_free(&self, region: Region) -> bool {
        self.is_usable(region) && self.holders(region).next().is_none()
    }

    /// Returns whether a block of this dimension in another block is usable.
    fn has_usable(&self, dim: u32, region: Region) -> bool {
        dim <= region.dim && blocks(region, dim).any(|it| self.is_usable(it))
    }

    /// Returns the latest end of the jobs in a block. It is 0 if there is none: no job ends at 0.
    pub fn latest(&self, region: Region) -> u64 {
        self.holders(region).map(|job| job.end).max().unwrap_or(0)
    }

    /// Returns how many processors of a block are held or out of service.
    fn busy(&self, region: Region) -> usize {
        blocks(region, 0).filter(|&it| !self.is_free(it)).count()
    }

    /// Returns the first free block, which may have to be apart from another one.
    fn first(&self, dim: u32, apart: Option<Region>) -> Option<Region> {
        let is_apart = |region: Region| apart.is_none_or(|it| !it.overlaps(region));
        blocks(self.whole(), dim).find(|&it| is_apart(it) && self.is_free(it))
    }

    // ---- the policy

    /// Returns the waiting jobs in order.
    pub fn waiting(&self) -> Vec<&Job> {
        let mut found: Vec<_> = self.jobs.values().filter(|job| job.block.is_none()).collect();
        found.sort_by_key(|job| (job.class, job.arrival));
        found
    }

    /// Returns the job that is not to be delayed: the first one with a usable block.
    fn head(&self) -> Option<u64> {
        let is_usable = |job: &&&Job| self.has_usable(job.dim, self.whole());
        let first = || self.waiting().iter().find(is_usable).map(|job| job.arrival);
        self.reserved.map(|it| it.0).or_else(first)
    }

    /// Returns the block that is reserved for a job of this dimension: of two halves the one that
    /// drains first, then the one with fewer busy processors, then the lower one.
    fn choose(&self, dim: u32) -> Region {
        let mut region = self.whole();
        while region.dim > dim {
            let (lower, upper) = region.halves().unwrap();
            let usable = [lower, upper].into_iter().filter(|&half| self.has_usable(dim, half));
            region = usable.min_by_key(|&half| (self.latest(half), self.busy(half), half)).unwrap();
        }
        region
    }

    /// Returns the end of a job that starts now.
    fn end_of(&self, estimate: u64) -> u64 {
        if estimate == 0 {
            NEVER
        } else {
            self.now.saturating_add(estimate)
        }
    }

    fn start(&mut self, arrival: u64, block: Region) -> u64 {
        let end = self.end_of(self.jobs[&arrival].estimate);
        let job = self.jobs.get_mut(&arrival).unwrap();
        (job.block, job.end) = (Some(block), end);
        self.reserved = self.reserved.filter(|it| it.0 != arrival);
        arrival
    }

    /// Returns where a job that is not the first one may start.
    fn place_beside(&self, job: &Job) -> Option<Region> {
        let Some((_, reserved)) = self.reserved else { return self.first(job.dim, None) };
        let (apart, promise) = (self.first(job.dim, Some(reserved)), self.latest(reserved));
        if apart.is_some() || promise == NEVER {
            return apart;
        }
        if self.end_of(job.estimate) <= promise {
            self.first(job.dim, None)
        } else {
            None
        }
    }

    /// Makes one decision. Returns the job that starts.
    fn decide(&mut self) -> Option<u64> {
        let head = self.head()?;
        let dim = self.jobs[&head].dim;
        if let Some(block) = self.first(dim, None) {
            return Some(self.start(head, block));
        }
        if self.reserved.is_none() {
            let block = self.choose(dim);
            let is_due = self.jobs[&head].passed >= self.patience << self.dim;
            if is_due || self.latest(block) < NEVER {
                self.reserved = Some((head, block));
            }
        }
        let others: Vec<_> = self.waiting().into_iter().filter(|job| job.arrival != head).cloned().collect();
        for job in others {
            if let Some(block) = self.place_beside(&job) {
                self.jobs.get_mut(&head).unwrap().passed += block.len();
                return Some(self.start(job.arrival, block));
            }
        }
        None
    }

    // ---- the calls, after their tests

    pub fn submit(&mut self, processors: u32, estimate: u64, class: u8) -> u64 {
        let (arrival, dim) = (self.arrivals, processors.next_power_of_two().trailing_zeros());
        let job = Job { arrival, processors, dim, class, estimate, passed: 0, block: None, end: NEVER };
        self.jobs.insert(arrival, job);
        self.arrivals += 1;
        arrival
    }

    /// Ends a job that waits or runs.
    pub fn end(&mut self, arrival: u64) {
        self.reserved = self.reserved.filter(|it| it.0 != arrival);
        self.jobs.remove(&arrival);
    }

    /// Returns whether a block goes out of service.
    pub fn occupy(&mut self, region: Region) -> bool {
        let is_free = self.is_free(region);
        if is_free {
            self.out.push(region);
            self.reserved = self.reserved.filter(|it| !it.1.overlaps(region));
        }
        is_free
    }

    /// Returns whether a block returns to service.
    pub fn vacate(&mut self, region: Region) -> bool {
        let place = self.out.iter().position(|&it| it == region);
        place.map(|it| self.out.swap_remove(it)).is_some()
    }

    pub fn next(&mut self, now: u64) -> Option<u64> {
        self.now = now;
        self.decide()
    }

    /// Returns how many waiting jobs come before one.
    pub fn before(&self, arrival: u64) -> u64 {
        let mut order = self.waiting();
        let first = self.reserved.map(|it| it.0);
        order.sort_by_key(|job| Some(job.arrival) != first);
        order.iter().position(|job| job.arrival == arrival).unwrap() as u64
    }

    /// Returns waiting, running, held, asked, occupied, largest.
    pub fn counts(&self) -> [u64; 6] {
        let running = || self.jobs.values().filter(|job| job.block.is_some());
        let held = running().map(|job| 1 << job.dim).sum();
        let asked = running().map(|job| u64::from(job.processors)).sum();
        let occupied = self.out.iter().map(|it| it.len()).sum();
        let largest = (0..=self.dim).rev().find(|&dim| self.first(dim, None).is_some());
        let count = running().count() as u64;
        [self.jobs.len() as u64 - count, count, held, asked, occupied, largest.map_or(0, |it| 1 << it)]
    }
}

/// Returns all blocks of a dimension in another block.
fn blocks(region: Region, dim: u32) -> impl Iterator<Item = Region> {
    region.range().step_by(1 << dim).map(move |base| Region { base, dim })
}
