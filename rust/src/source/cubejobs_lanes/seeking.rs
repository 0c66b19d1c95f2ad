// Made from crates/cubejobs_lanes/src/seeking.rt by checks/lib/erase.py. Change that file.
//! A worker of lanes finds a job, or lies down.

use crate::source::cubejobs_lanes::sleeper_side::{KeptJob, SleeperSide};
use crate::source::cubejobs_lanes::tries::TRIES;
use crate::source::lanes::{At, Finding, Found};

impl SleeperSide {
    // Goes on to wake another worker. Returns the job that it keeps once that is over.
    fn wake_on(&mut self, one: KeptJob) -> Finding {
        let woken = self.common.lanes.wake_more(&mut self.finder, TRIES);
        if self.finder.at() != At::Idle {
            return Finding {
                found: Found::Again,
                woken,
            };
        }
        self.kept = None;
        let KeptJob { lane, job, left } = one;
        Finding {
            found: Found::Job(lane, job, left),
            woken,
        }
    }

    // Finds a job, or lets the worker lie down. It keeps the job while it has still to wake another
    // worker.
    pub(crate) fn find(&mut self, from: u32) -> Finding {
        if let Some(one) = self.kept {
            return self.wake_on(one);
        }
        let finding = self.common.lanes.find(&mut self.finder, from, TRIES);
        let Found::Job(lane, job, left) = finding.found else {
            return finding;
        };
        if self.finder.at() == At::Idle {
            return finding;
        }
        self.kept = Some(KeptJob { lane, job, left });
        Finding {
            found: Found::Again,
            woken: finding.woken,
        }
    }

    // Takes the token of a worker that parks. Returns whether it is awake then.
    pub(crate) fn awake(&mut self) -> bool {
        self.common.lanes.awake(&mut self.finder)
    }
}
