// Made from crates/lanes/src/finding.rt by checks/lib/erase.py. Change that file.

use crate::source::lanes::finder::{At, Finder, Finding, Found};
use crate::source::lanes::lanes::Lanes;
use crate::source::lanes::rounds::{Looked, TakenAny};
use crate::source::lanes::sleeping::Sleeper;
use crate::source::wake_calls::{Asleep, Back, Wake};

// The outcome of a round, and where the worker is after it.
pub(crate) struct Round {
    pub found: Found,
    pub woken: Option<u32>,
    pub at: At,
}

// Returns a round that found no job. A worker that parks is to wait for its token.
fn again(at: At, woken: Option<u32>) -> Round {
    let found = if at == At::Parked {
        Found::Park
    } else {
        Found::Again
    };
    Round { found, woken, at }
}

impl Lanes {
    // Looks at every lane, before the worker parks. Returns where it is then.
    fn look_at_all(&self, sleeper: &mut Sleeper) -> At {
        let mut lane = 0;
        while lane < self.plan.sizes.lanes {
            if !self.look_before_park(sleeper, lane) {
                return At::Returning;
            }
            lane += 1;
        }
        At::Reading
    }

    // Looks at every lane, before the worker lies down. Returns whether one was open and empty.
    //
    // If none was, the worker must not lie down. All lanes may be closed, and it may have taken the
    // call of their closer: then nobody would wake it again.
    fn may_lie_down(&self, sleeper: &mut Sleeper) -> bool {
        let mut lane = 0;
        while lane < self.plan.sizes.lanes {
            if let Looked::NoneLeft = self.look_as(sleeper, lane) {
                return true;
            }
            lane += 1;
        }
        false
    }

    // Looks at every lane, after the worker has found work. Returns whether no more is left.
    fn no_more(&self, sleeper: &mut Sleeper) -> bool {
        let mut lane = 0;
        while lane < self.plan.sizes.lanes {
            if !self.look_for_more(sleeper, lane) {
                return false;
            }
            lane += 1;
        }
        true
    }

    // Wakes another worker, by at most this number of tries. Returns it, and where this one is.
    fn wake_other(&self, sleeper: &mut Sleeper, word: u64, tries: u32) -> (At, Option<u32>) {
        match self.wake(sleeper, word, tries) {
            Wake::Nobody => (At::Idle, None),
            Wake::Again(left) => (At::Waking(left), None),
            Wake::Worker(other) => {
                self.give(sleeper, other);
                (At::Idle, Some(other))
            }
        }
    }

    // Ends the search of a worker that has work. If more is left, it wakes another.
    fn end_search(&self, sleeper: &mut Sleeper, tries: u32) -> (At, Option<u32>) {
        self.leave(sleeper);
        if self.no_more(sleeper) {
            return (At::Idle, None);
        }
        self.wake_other(sleeper, 0, tries)
    }

    // Returns how many jobs after this one the worker knows to be accepted.
    fn left_after(&self, sleeper: &Sleeper, lane: u32, seq: u64) -> u64 {
        let tail = sleeper.tails[lane as usize];
        tail.saturating_sub(seq).saturating_sub(1)
    }

    // The round of an idle worker: it takes a job, or lies down.
    fn round_idle(&self, sleeper: &mut Sleeper, from: u32) -> Round {
        match self.take_round(sleeper, from, false) {
            TakenAny::AnyJob(lane, job, left) => Round {
                found: Found::Job(lane, job, left),
                woken: None,
                at: At::Idle,
            },
            TakenAny::AllEnded => Round {
                found: Found::Ended,
                woken: None,
                at: At::Idle,
            },
            TakenAny::NoJob => {
                if !self.may_lie_down(sleeper) {
                    return again(At::Idle, None);
                }
                self.rest(sleeper);
                let at = self.look_at_all(sleeper);
                Round {
                    found: Found::Again,
                    woken: None,
                    at,
                }
            }
        }
    }

    // The round of the searcher: it takes a job and wakes another for more, or lies down. Once all
    // lanes have ended, it ends its search.
    fn round_searching(&self, sleeper: &mut Sleeper, from: u32, tries: u32) -> Round {
        match self.take_round(sleeper, from, true) {
            TakenAny::AnyJob(lane, job, _) => {
                let (at, woken) = self.end_search(sleeper, tries);
                let left = self.left_after(sleeper, lane, job.seq);
                Round {
                    found: Found::Job(lane, job, left),
                    woken,
                    at,
                }
            }
            TakenAny::AllEnded => {
                self.find_call(sleeper);
                Round {
                    found: Found::Again,
                    woken: None,
                    at: At::HasWork,
                }
            }
            TakenAny::NoJob => {
                if !self.may_lie_down(sleeper) {
                    return again(At::Searching, None);
                }
                self.lie_down(sleeper);
                let at = self.look_at_all(sleeper);
                Round {
                    found: Found::Again,
                    woken: None,
                    at,
                }
            }
        }
    }

    // The round of a worker that has set its bit and seen a job: it takes its bit back.
    fn round_back(&self, sleeper: &mut Sleeper, tries: u32) -> At {
        match self.try_back(sleeper, tries) {
            Back::Searches => At::Searching,
            Back::Stays => At::Reading,
            Back::Again => At::Returning,
        }
    }

    // The round of a worker that has set its bit: it takes its call, or searches, or parks.
    fn round_reading(&self, sleeper: &mut Sleeper) -> At {
        match self.before_park(sleeper) {
            Asleep::Call => {
                self.take_call(sleeper);
                At::Idle
            }
            Asleep::CallOfSearcher => At::HasWork,
            Asleep::Woken => At::Searching,
            Asleep::Park => At::Parked,
        }
    }

    // Takes the token of a worker that parks. Returns where it is.
    fn round_parked(&self, sleeper: &mut Sleeper) -> At {
        if self.wait(sleeper) {
            return At::Reading;
        }
        At::Parked
    }
    // One round of `find`, by where the worker is.
    fn find_round(&self, sleeper: &mut Sleeper, at: At, from: u32, tries: u32) -> Round {
        match at {
            At::Idle => self.round_idle(sleeper, from),
            At::Searching => self.round_searching(sleeper, from, tries),
            At::Waking(word) => {
                let (at, woken) = self.wake_other(sleeper, word, tries);
                again(at, woken)
            }
            At::HasWork => {
                let (at, woken) = self.end_search(sleeper, tries);
                again(at, woken)
            }
            At::Returning => again(self.round_back(sleeper, tries), None),
            At::Reading => again(self.round_reading(sleeper), None),
            At::Parked => again(self.round_parked(sleeper), None),
        }
    }

    // The rounds of `find`, from this place on.
    fn find_from(&self, sleeper: &mut Sleeper, at: At, from: u32, tries: u32) -> Round {
        let mut at = at;
        let mut turn = 0;
        while turn < tries {
            let round = self.find_round(sleeper, at, from, tries);
            if round.found != Found::Again || round.woken.is_some() {
                return round;
            }
            at = round.at;
            turn += 1;
        }
        again(at, None)
    }

    /// Finds a job, or lets the worker lie down: it looks for a job in all lanes, from the lane
    /// `from` on. If it finds one after it was woken and more are left, it wakes another. It makes
    /// at most `tries` rounds, with at most `tries` lost exchanges in each. The next call goes on
    /// where this one stopped. If `at` is `Waking` after a job, `wake_more` or the next call goes
    /// on to wake.
    ///
    /// # Clauses of the proved source
    ///
    /// - requires id: `finder.old.id ≡ self.now`
    /// - requires from: `from < self.now.plan.sizes.lanes`
    /// - ensures id: `finder.new.id ≡ self.now`
    /// - ensures given: `given_in finder.new.deeds ≡ and_given result.woken (given_in finder.old.deeds)`
    /// - ensures calls: `has_call finder.old.deeds ≡ false → has_call finder.new.deeds ≡ false`
    /// - ensures finds: `Finds self.now.plan.sizes.lanes from (tries * find_steps) finder.old.known result.found finder.new.known`
    /// - ensures at: `StopsAt result.found finder.new.at`
    /// - ensures woken: `IfSome result.woken (λ x. x < self.now.plan.sleepers)`
    pub fn find(&self, finder: &mut Finder, from: u32, tries: u32) -> Finding {
        let round = self.find_from(&mut finder.sleeper, finder.at, from, tries);
        finder.at = round.at;
        Finding {
            found: round.found,
            woken: round.woken,
        }
    }

    /// Goes on to wake another worker, if this one has still to look whether one is to be woken
    /// (`At::Waking`). It looks at most at `tries` words. It returns a worker that was given its
    /// token. The caller unparks the thread of that worker.
    ///
    /// # Clauses of the proved source
    ///
    /// - requires: `finder.old.id ≡ self.now`
    /// - ensures id: `finder.new.id ≡ self.now`
    /// - ensures deeds: `finder.new.deeds ≡ after_gift result finder.old.deeds`
    /// - ensures known: `finder.new.known ≡ finder.old.known`
    /// - ensures free: `IsFree finder.old.at → IsFree finder.new.at`
    /// - ensures other: `((word : ℕ) → finder.old.at ≢ AtWaking word) → finder.new.at ≡ finder.old.at`
    /// - ensures woken: `IfSome result (λ x. x < self.now.plan.sleepers)`
    pub fn wake_more(&self, finder: &mut Finder, tries: u32) -> Option<u32> {
        let At::Waking(word) = finder.at else {
            return None;
        };
        let (at, woken) = self.wake_other(&mut finder.sleeper, word, tries);
        finder.at = at;
        woken
    }

    /// Takes the token of a worker that parks. Returns whether the worker is awake then. The
    /// caller parks the thread if it is not.
    ///
    /// # Clauses of the proved source
    ///
    /// - requires: `finder.old.id ≡ self.now`
    /// - ensures id: `finder.new.id ≡ self.now`
    /// - ensures deeds: `finder.new.deeds ≡ finder.old.deeds`
    /// - ensures known: `finder.new.known ≡ finder.old.known`
    /// - ensures parks: `result ≡ false → finder.new.at ≡ AtParked`
    /// - ensures awake: `result ≡ true → IsAwake finder.new.at`
    /// - ensures same: `finder.old.at ≢ AtParked → finder.new.at ≡ finder.old.at`
    pub fn awake(&self, finder: &mut Finder) -> bool {
        if finder.at != At::Parked {
            return true;
        }
        finder.at = self.round_parked(&mut finder.sleeper);
        finder.at != At::Parked
    }
}
