// Made from crates/cubejobs_lanes/src/ending.rt by checks/lib/erase.py. Change that file.
//! How lanes end.

use crate::source::kit::prelude::{Vec};

use crate::source::cubejobs_lanes::answers::FinishAnswer;
use crate::source::cubejobs_lanes::codes::{DONE, LANE_OUT, NOT_CLOSED, STILL_SHARED, WORKER_OUT};
use crate::source::cubejobs_lanes::common::Common;
use crate::source::cubejobs_lanes::kept::{KeptLane, KeptWorker};
use crate::source::cubejobs_lanes::left::Left;
use crate::source::cubejobs_lanes::owner::Owner;
use crate::source::cubejobs_lanes::places::first_empty;
use crate::source::cubejobs_lanes::stage::Stage;
use crate::source::cubejobs_lanes::state::State;
use crate::source::lanes::{Lanes, LanesEnd};
use crate::source::kit::collections::VecDeque;
use crate::source::kit::sync::Arc;

// Takes all lanes back, the first one first.
fn gather_lanes(lanes: &Lanes, end: &mut LanesEnd, places: Vec<Option<KeptLane>>) {
    let mut places = VecDeque::from_vec(places);
    while let Some(place) = places.pop_front() {
        let Some(kept) = place else { unreachable!() };
        lanes.gather_lane(end, kept.into_lane());
    }
}

// Takes all workers back, the first one first.
fn gather_workers(lanes: &Lanes, end: &mut LanesEnd, places: Vec<Option<KeptWorker>>) {
    let mut places = VecDeque::from_vec(places);
    while let Some(place) = places.pop_front() {
        let Some(kept) = place else { unreachable!() };
        lanes.gather_worker(end, kept.into_worker());
    }
}

impl Owner {
    // Collects what has come back, and ends the lanes if it can. Returns the content of their
    // handle, and the answer.
    pub(crate) fn finish(self) -> (State, FinishAnswer) {
        let mut owner = self;
        owner.collect();
        let answer = owner.finish_code();
        if answer.code != DONE {
            return (State::Owner(owner), answer);
        }
        match owner.into_left() {
            Ok(left) => (State::Left(left), answer),
            Err(owner) => (State::Owner(owner), FinishAnswer::of(STILL_SHARED)),
        }
    }

    // Returns why the lanes cannot end, with the first lane or worker that is out, or `DONE`.
    fn finish_code(&self) -> FinishAnswer {
        if let Stage::Open(_) = &self.stage {
            return FinishAnswer::of(NOT_CLOSED);
        }
        if let Some(place) = first_empty(&self.lanes) {
            return FinishAnswer {
                code: LANE_OUT,
                number: place as u32,
            };
        }
        if let Some(place) = first_empty(&self.workers) {
            return FinishAnswer {
                code: WORKER_OUT,
                number: place as u32,
            };
        }
        FinishAnswer::of(DONE)
    }

    // Ends the lanes, and returns the jobs that are left, unless another handle shares the lanes.
    fn into_left(self) -> Result<Left, Owner> {
        let Owner {
            common,
            stage,
            lanes,
            workers,
        } = self;
        match Arc::try_unwrap(common) {
            Err(common) => Err(Owner {
                common,
                stage,
                lanes,
                workers,
            }),
            Ok(common) => Ok(left_of(common, stage, lanes, workers)),
        }
    }
}

// Ends the lanes, and returns the jobs that are left.
fn left_of(
    common: Common,
    stage: Stage,
    lanes: Vec<Option<KeptLane>>,
    workers: Vec<Option<KeptWorker>>,
) -> Left {
    let Common {
        lanes: table,
        sizes: _,
        lane_places: _,
        worker_places: _,
    } = common;
    let Stage::Closed(kept) = stage else {
        unreachable!()
    };
    let mut end = kept.into_note().into_end();
    gather_lanes(&table, &mut end, lanes);
    gather_workers(&table, &mut end, workers);
    Left {
        jobs: table.into_rest(end),
    }
}
