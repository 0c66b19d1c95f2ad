// Made from crates/sched_board/src/calls.rt by checks/lib/erase.py. Change that file.
//! What threads that are no workers ask of a board.

use crate::source::sched_board::blocks::is_block;
use crate::source::sched_board::board::{BoardPhase, BoardRefusal, JobBoard};
use crate::source::sched_board::woken::Woken;
use crate::source::cube_shape::Region;
use crate::source::sched_core::{JobRequest, Place, is_askable, job_of};

/// What follows from a call for workers.
#[derive(Clone, Copy, Debug, PartialEq, Eq)]
pub struct Effect {
    /// The workers that got a job.
    pub woken: Woken,
    /// Whether more jobs may start.
    pub more: bool,
    /// Whether no job will start any more.
    pub over: bool,
}

impl Effect {
    /// Nothing.
    pub const NONE: Effect = Effect {
        woken: Woken::NONE,
        more: false,
        over: false,
    };
}

/// Why a job is not submitted.
#[derive(Clone, Copy, Debug, PartialEq, Eq, Hash)]
pub enum SubmitError {
    /// The machine cannot have such a job.
    OutOfRange,
    /// No job may come any more.
    Closed,
    /// There is no place for it.
    Full,
}

/// Why a job is not cancelled.
#[derive(Clone, Copy, Debug, PartialEq, Eq, Hash)]
pub enum CancelError {
    /// The ticket is of no job, or of one that is over.
    NoJob,
    /// The job runs.
    Runs,
}

/// Why a block is not taken out of service or put back.
#[derive(Clone, Copy, Debug, PartialEq, Eq, Hash)]
pub enum BlockError {
    /// It is no aligned block of the machine.
    OutOfRange,
    /// To take out: a part of it is held or out of service. To put back: it is not out of service
    /// as one block.
    WrongState,
}

/// A waiting job that a closed board gives back.
#[derive(Clone, Copy, Debug, PartialEq, Eq, Hash)]
pub struct RestJob {
    /// The slot that it had.
    pub slot: u32,
    /// Its ticket.
    pub ticket: u64,
    /// The number that came with it.
    pub payload: u64,
}

impl JobBoard {
    /// Starts jobs for workers that wait.
    ///
    /// # Clauses of the proved source
    ///
    /// - ensures follows: `FollowsAt now self.old [] self.new`
    /// - ensures stopped: `self.old.phase ≡ Stopped → self.new ≡ self.old`
    /// - ensures serves: `Serves None self.old self.new`
    /// - ensures woken: `NamesWoken self.old self.new result.woken`
    /// - ensures more: `IsTrue result.more → result.woken.count ≡ MOST_WOKEN`
    /// - ensures rest: `IsFalse result.more → IsAtRest self.new`
    /// - ensures over: `IsTrue result.over → IsOver self.new × IsAtRest self.new`
    /// - ensures told: `IsFalse result.more → IsOver self.new → IsTrue result.over`
    /// - ensures count: `workers_of self.new.pool ≡ workers_of self.old.pool`
    /// - ensures slots: `slots_of self.new.pool.core ≡ slots_of self.old.pool.core`
    /// - ensures generations: `KeepsGenerations self.old.pool.core self.new.pool.core`
    /// - ensures keeps: `KeepsSlots self.old.pool.core self.new.pool.core`
    /// - ensures phase: `KeepsPhase self.old self.new`
    pub fn settle(&mut self, now: u64) -> Effect {
        let (woken, more) = self.decide(now);
        let over = !more && self.is_over();
        Effect { woken, more, over }
    }

    /// Submits a job, and starts jobs for workers that wait. Returns the job's ticket.
    ///
    /// # Clauses of the proved source
    ///
    /// - ensures accepted: `IfOk result (λ answer. IsSubmitted now request answer.0 self.old self.new)`
    /// - ensures serves: `Serves None self.old self.new`
    /// - ensures woken: `IfOk result (λ answer. NamesWoken self.old self.new answer.1.woken)`
    /// - ensures more: `IfOk result (λ answer. IsTrue answer.1.more → answer.1.woken.count ≡ MOST_WOKEN)`
    /// - ensures rest: `IfOk result (λ answer. IsFalse answer.1.more → IsAtRest self.new)`
    /// - ensures over: `IfOk result (λ answer. IsTrue answer.1.over → IsOver self.new × IsAtRest self.new)`
    /// - ensures told: `IfOk result (λ answer. IsFalse answer.1.more → IsOver self.new → IsTrue answer.1.over)`
    /// - ensures why: `IfErr result (λ why. IsRefusal request self.old why)`
    /// - ensures unchanged: `IfErr result (λ why. IsUnchanged self.old self.new)`
    /// - ensures count: `workers_of self.new.pool ≡ workers_of self.old.pool`
    /// - ensures phase: `KeepsPhase self.old self.new`
    pub fn accept(&mut self, request: JobRequest, now: u64) -> Result<(u64, Effect), SubmitError> {
        let n = self.scheduler().dim();
        if !is_askable(n, request) {
            return Err(SubmitError::OutOfRange);
        }
        match self.submit(job_of(n, request)) {
            Ok(slot) => {
                let ticket = self.scheduler().ticket(slot);
                Ok((ticket, self.settle(now)))
            }
            Err(BoardRefusal::Closed) => Err(SubmitError::Closed),
            Err(BoardRefusal::Full) => Err(SubmitError::Full),
        }
    }

    /// Removes a waiting job, and starts jobs for workers that wait. Returns the number that came
    /// with the job.
    ///
    /// # Clauses of the proved source
    ///
    /// - ensures cancelled: `IfOk result (λ answer. IsCancelled now ticket answer.0 self.old self.new)`
    /// - ensures serves: `Serves None self.old self.new`
    /// - ensures woken: `IfOk result (λ answer. NamesWoken self.old self.new answer.1.woken)`
    /// - ensures more: `IfOk result (λ answer. IsTrue answer.1.more → answer.1.woken.count ≡ MOST_WOKEN)`
    /// - ensures rest: `IfOk result (λ answer. IsFalse answer.1.more → IsAtRest self.new)`
    /// - ensures over: `IfOk result (λ answer. IsTrue answer.1.over → IsOver self.new × IsAtRest self.new)`
    /// - ensures told: `IfOk result (λ answer. IsFalse answer.1.more → IsOver self.new → IsTrue answer.1.over)`
    /// - ensures why: `IfErr result (λ why. IsNotCancelled ticket self.old why)`
    /// - ensures unchanged: `IfErr result (λ why. IsUnchanged self.old self.new)`
    /// - ensures count: `workers_of self.new.pool ≡ workers_of self.old.pool`
    /// - ensures phase: `KeepsPhase self.old self.new`
    pub fn recall(&mut self, ticket: u64, now: u64) -> Result<(u64, Effect), CancelError> {
        let Some(slot) = self.scheduler().find(ticket) else {
            return Err(CancelError::NoJob);
        };
        let Place::Waiting(wait) = self.scheduler().place(slot) else {
            return Err(CancelError::Runs);
        };
        self.cancel(slot);
        Ok((wait.job.payload, self.settle(now)))
    }

    /// Takes a block out of service, and starts jobs for workers that wait.
    ///
    /// # Clauses of the proved source
    ///
    /// - ensures follows: `IfOk result (λ effect. FollowsAt now self.old (occupies (block_at base dim) ∷ []) self.new)`
    /// - ensures stopped: `IfOk result (λ effect. self.old.phase ≡ Stopped → Leads self.old (occupies (block_at base dim) ∷ []) self.new)`
    /// - ensures serves: `Serves None self.old self.new`
    /// - ensures woken: `IfOk result (λ effect. NamesWoken self.old self.new effect.woken)`
    /// - ensures more: `IfOk result (λ effect. IsTrue effect.more → effect.woken.count ≡ MOST_WOKEN)`
    /// - ensures rest: `IfOk result (λ effect. IsFalse effect.more → IsAtRest self.new)`
    /// - ensures over: `IfOk result (λ effect. IsTrue effect.over → IsOver self.new × IsAtRest self.new)`
    /// - ensures told: `IfOk result (λ effect. IsFalse effect.more → IsOver self.new → IsTrue effect.over)`
    /// - ensures why: `IfErr result (λ why. IsNotTakenOut (block_at base dim) self.old why)`
    /// - ensures unchanged: `IfErr result (λ why. IsUnchanged self.old self.new)`
    /// - ensures count: `workers_of self.new.pool ≡ workers_of self.old.pool`
    /// - ensures phase: `KeepsPhase self.old self.new`
    pub fn take_out(&mut self, base: u64, dim: u32, now: u64) -> Result<Effect, BlockError> {
        let region = Region { base, dim };
        if !is_block(self.scheduler().dim(), region) {
            return Err(BlockError::OutOfRange);
        }
        if !self.occupy(region) {
            return Err(BlockError::WrongState);
        }
        Ok(self.settle(now))
    }

    /// Puts a block back into service, and starts jobs for workers that wait.
    ///
    /// # Clauses of the proved source
    ///
    /// - ensures follows: `IfOk result (λ effect. FollowsAt now self.old (vacates (block_at base dim) ∷ []) self.new)`
    /// - ensures stopped: `IfOk result (λ effect. self.old.phase ≡ Stopped → Leads self.old (vacates (block_at base dim) ∷ []) self.new)`
    /// - ensures serves: `Serves None self.old self.new`
    /// - ensures woken: `IfOk result (λ effect. NamesWoken self.old self.new effect.woken)`
    /// - ensures more: `IfOk result (λ effect. IsTrue effect.more → effect.woken.count ≡ MOST_WOKEN)`
    /// - ensures rest: `IfOk result (λ effect. IsFalse effect.more → IsAtRest self.new)`
    /// - ensures over: `IfOk result (λ effect. IsTrue effect.over → IsOver self.new × IsAtRest self.new)`
    /// - ensures told: `IfOk result (λ effect. IsFalse effect.more → IsOver self.new → IsTrue effect.over)`
    /// - ensures why: `IfErr result (λ why. IsNotPutBack (block_at base dim) self.old why)`
    /// - ensures unchanged: `IfErr result (λ why. IsUnchanged self.old self.new)`
    /// - ensures count: `workers_of self.new.pool ≡ workers_of self.old.pool`
    /// - ensures phase: `KeepsPhase self.old self.new`
    pub fn put_back(&mut self, base: u64, dim: u32, now: u64) -> Result<Effect, BlockError> {
        let region = Region { base, dim };
        if !is_block(self.scheduler().dim(), region) {
            return Err(BlockError::OutOfRange);
        }
        if !self.vacate(region) {
            return Err(BlockError::WrongState);
        }
        Ok(self.settle(now))
    }

    /// Lets no job come any more, and starts jobs for workers that wait if those that wait are to
    /// start. Returns `None` only if no job may come already.
    ///
    /// # Clauses of the proved source
    ///
    /// - ensures follows: `IfSome result (λ effect. FollowsAt now self.old (closes ∷ []) self.new)`
    /// - ensures stopped: `IfSome result (λ effect. IsFalse do_start → Leads self.old (closes ∷ []) self.new)`
    /// - ensures closed: `IsClosed self.new`
    /// - ensures phase: `IfSome result (λ effect. self.new.phase ≡ phase_after do_start)`
    /// - ensures serves: `Serves None self.old self.new`
    /// - ensures woken: `IfSome result (λ effect. NamesWoken self.old self.new effect.woken)`
    /// - ensures more: `IfSome result (λ effect. IsTrue effect.more → effect.woken.count ≡ MOST_WOKEN)`
    /// - ensures rest: `IfSome result (λ effect. IsFalse effect.more → IsAtRest self.new)`
    /// - ensures over: `IfSome result (λ effect. IsTrue effect.over → IsOver self.new × IsAtRest self.new)`
    /// - ensures told: `IfSome result (λ effect. IsFalse effect.more → IsOver self.new → IsTrue effect.over)`
    /// - ensures open: `IfSome result (λ effect. IsClosed self.old → ⊥)`
    /// - ensures why: `IfNone result (IsClosed self.old)`
    /// - ensures unchanged: `IfNone result (IsUnchanged self.old self.new)`
    /// - ensures count: `workers_of self.new.pool ≡ workers_of self.old.pool`
    pub fn shut(&mut self, do_start: bool, now: u64) -> Option<Effect> {
        if self.phase != BoardPhase::Open {
            return None;
        }
        self.close(do_start);
        Some(self.settle(now))
    }

    // Returns the first slot from one on whose job waits.
    fn waiting_from(&self, from: u32) -> Option<u32> {
        let scheduler = self.scheduler();
        scheduler.shows_a_state();
        let mut start = from;
        while let Some(slot) = scheduler.next_used(start) {
            if let Place::Waiting(_) = scheduler.place(slot) {
                return Some(slot);
            }
            start = slot + 1;
        }
        None
    }

    /// Removes the first waiting job in slots from one on, and gives it back. Returns `None` only
    /// if there is none, or if jobs may still come.
    ///
    /// # Clauses of the proved source
    ///
    /// - ensures taken: `IfSome result (λ rest. IsTakenBack from rest self.old self.new)`
    /// - ensures closed: `IfSome result (λ rest. IsClosed self.old)`
    /// - ensures none: `IfNone result (IsClosed self.old → HasNoneWaiting self.old.pool.core from)`
    /// - ensures serves: `Serves None self.old self.new`
    /// - ensures unchanged: `IfNone result (IsUnchanged self.old self.new)`
    /// - ensures workers: `HasSameWorkers self.old.pool self.new.pool`
    /// - ensures count: `workers_of self.new.pool ≡ workers_of self.old.pool`
    /// - ensures phase: `KeepsPhase self.old self.new`
    pub fn take_rest(&mut self, from: u32) -> Option<RestJob> {
        if self.phase == BoardPhase::Open {
            return None;
        }
        let Some(slot) = self.waiting_from(from) else {
            return None;
        };
        let Place::Waiting(wait) = self.scheduler().place(slot) else {
            unreachable!()
        };
        let ticket = self.scheduler().ticket(slot);
        self.cancel(slot);
        Some(RestJob {
            slot,
            ticket,
            payload: wait.job.payload,
        })
    }
}
