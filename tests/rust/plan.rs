//! Plays events from the standard input on the scheduler in its source form, and prints each answer.
//!
//! An event is a line: a letter and numbers. `o` opens a scheduler, `s` submits, `i` names the slot too, `c` cancels, `d` ends a job, `f` asks of
//! one, `b` and `v` take a block out of service and put it back, `n` makes a decision, after a look if its last number is
//! 1, and `k` asks for the counts.
#![allow(dead_code)]

extern crate alloc;

#[path = "../../rust/src/source/mod.rs"]
#[rustfmt::skip]
mod source;

use source::kit::fixed_vec::Store;
use source::kit::alloc::Global;
use source::sched_core::{Forecast, Place, Region, SchedJob, Scheduler, NEVER};
use std::collections::HashMap;
use std::io::{BufRead, Write};

/// A scheduler, and the tickets of its jobs by their numbers.
struct Played {
    scheduler: Scheduler,
    tickets: HashMap<u64, u64>,
}

/// Returns how many jobs come before a waiting one. Of the last job the scheduler says it by two calls.
fn before(scheduler: &Scheduler, slot: u32) -> u64 {
    let before = scheduler.before(slot);
    if scheduler.arrival(slot) + 1 == scheduler.submitted() {
        assert!(before == scheduler.before_last(slot), "the last job has another number before it");
    }
    before
}

/// Returns what is known of a job, as the model writes it.
fn shown(scheduler: &Scheduler, slot: u32) -> String {
    let (job, before) = match scheduler.place(slot) {
        Place::Waiting(wait) => (wait.job, before(scheduler, slot)),
        Place::Running(run) => (run.job, 0),
        Place::Absent => return "absent".to_string(),
    };
    let (state, block, time) = match scheduler.forecast(slot) {
        Forecast::Nothing => return "nothing".to_string(),
        Forecast::Queued => (1, Region { base: 0, dim: job.dim as u32 }, NEVER),
        Forecast::Promised(block, time) => (2, block, time),
        Forecast::Started(block, time) => (3, block, time),
    };
    let rest = format!("{} {} {} {}", job.processors, job.class, job.payload, scheduler.arrival(slot));
    format!("{state} {} {} {time} {before} {rest}", block.base, block.dim)
}

impl Played {
    fn opened(numbers: &[u64]) -> Played {
        let mut store = Store::heap(Global);
        let Ok(scheduler) = Scheduler::new(&mut store, numbers[0] as u32, numbers[1] as usize, numbers[2] as u32) else {
            panic!("no memory")
        };
        Played { scheduler, tickets: HashMap::new() }
    }

    fn found(&self, number: u64) -> Option<u32> {
        self.scheduler.find(*self.tickets.get(&number)?)
    }

    /// Submits into the first vacant slot from one on, after the first used one refused the job.
    fn submit_into_some(&mut self, from: u64, job: SchedJob) -> Option<u32> {
        let slots = self.scheduler.capacity() as u64;
        let (from, number) = (from.checked_rem(slots)?, self.scheduler.submitted());
        if let Some(used) = self.scheduler.next_used(from as u32) {
            let before = shown(&self.scheduler, used);
            assert!(!self.scheduler.submit_into(used, job), "a slot with a job gets another");
            assert!(before == shown(&self.scheduler, used) && number == self.scheduler.submitted(), "a refusal changes a job");
        }
        let mut round = (from..slots).chain(0..from).map(|it| it as u32);
        let slot = round.find(|it| matches!(self.scheduler.place(*it), Place::Absent))?;
        assert!(self.scheduler.submit_into(slot, job), "a vacant slot gets no job");
        assert!(number == self.scheduler.arrival(slot), "another slot gets the job");
        Some(slot)
    }

    fn submit(&mut self, numbers: &[u64]) -> String {
        let processors = numbers[2] as u32;
        let dim = (32 - (processors - 1).leading_zeros()) as u8;
        let job = SchedJob { payload: numbers[0], estimate: numbers[1], processors, class: numbers[3] as u8, dim };
        let number = self.scheduler.submitted();
        let slot = match numbers.get(4) {
            Some(&from) => self.submit_into_some(from, job),
            None => self.scheduler.submit(job),
        };
        let Some(slot) = slot else {
            return "full".to_string();
        };
        self.tickets.insert(number, self.scheduler.ticket(slot));
        "ok".to_string()
    }

    /// Ends a job that waits or runs, and returns what was known of it.
    fn end(&mut self, number: u64, waits: bool) -> String {
        let Some(slot) = self.found(number) else {
            return "none".to_string();
        };
        let text = shown(&self.scheduler, slot);
        match (self.scheduler.place(slot), waits) {
            (Place::Waiting(_), true) => self.scheduler.cancel(slot),
            (Place::Running(_), false) => self.scheduler.finish(slot),
            _ => return "wrong".to_string(),
        }
        text
    }

    fn next(&mut self, now: u64, looks: bool) -> String {
        let told = looks.then(|| self.scheduler.peek(now).map(|it| (it.slot, it.block)));
        let started = self.scheduler.next(now);
        let block = started.and_then(|slot| match self.scheduler.place(slot) {
            Place::Running(run) => Some((slot, run.block)),
            _ => None,
        });
        assert!(told.map_or(true, |it| it == block), "another job starts than was announced");
        started.map_or("-".to_string(), |slot| shown(&self.scheduler, slot))
    }

    fn counts(&self) -> String {
        let it = &self.scheduler;
        let largest = it.largest_vacant().map_or(0, |dim| 1u64 << dim);
        format!("{} {} {} {} {} {largest}", it.waiting(), it.running(), it.held(), it.asked(), it.occupied())
    }

    fn answer(&mut self, letter: &str, numbers: &[u64]) -> String {
        let block = |numbers: &[u64]| Region { base: numbers[0], dim: numbers[1] as u32 };
        match letter {
            "s" | "i" => self.submit(numbers),
            "c" => self.end(numbers[0], true),
            "d" => self.end(numbers[0], false),
            "f" => self.found(numbers[0]).map_or("none".to_string(), |slot| shown(&self.scheduler, slot)),
            "b" => self.scheduler.occupy(block(numbers)).to_string(),
            "v" => self.scheduler.vacate(block(numbers)).to_string(),
            "n" => self.next(numbers[0], numbers[1] == 1),
            "k" => self.counts(),
            _ => panic!("no event is called {letter}"),
        }
    }
}

fn main() {
    let mut out = std::io::BufWriter::new(std::io::stdout());
    let mut played = Played::opened(&[0, 0, 0]);
    for line in std::io::stdin().lock().lines() {
        let line = line.unwrap();
        let (letter, rest) = line.split_at(1);
        let numbers: std::vec::Vec<u64> = rest.split_whitespace().map(|it| it.parse().unwrap()).collect();
        if letter == "o" {
            played = Played::opened(&numbers);
        } else {
            writeln!(out, "{letter} {}", played.answer(letter, &numbers)).unwrap();
        }
    }
}
