// Made from crates/cubejobs_lanes/src/dealing.rt by checks/lib/erase.py. Change that file.
//! Lanes and workers leave their places, for handles of their own.

use crate::source::kit::prelude::{Box};

use crate::source::cubejobs_lanes::codes::{DONE, NONE_LEFT, OUT_OF_MEMORY};
use crate::source::cubejobs_lanes::owner::Owner;
use crate::source::cubejobs_lanes::places::{first_full, take_from};
use crate::source::cubejobs_lanes::sides::{LaneSide, WorkerSide};
use crate::source::cubejobs_lanes::state::State;
use crate::source::kit::alloc::Global;
use crate::source::kit::sync::Arc;

// Makes a box for a content, without it.
pub(crate) fn room(alloc: Global) -> Option<Box<State>> {
    match Box::new(alloc, State::Away) {
        Ok(room) => Some(room),
        Err(failed) => {
            drop(failed);
            None
        }
    }
}

// Puts a content into a box.
pub(crate) fn filled(room: Box<State>, content: State) -> Box<State> {
    let mut room = room;
    drop(Box::replace(&mut room, content));
    room
}

impl Owner {
    // Collects what has come back, and takes the first lane that is in its place.
    pub(crate) fn ask_lane(&mut self, alloc: Global) -> Result<Box<State>, u32> {
        self.collect();
        match self.deal_lane(alloc) {
            Ok(content) => Ok(content),
            Err(code) => Err(code),
        }
    }

    // Collects what has come back, and takes the first worker that is in its place.
    pub(crate) fn ask_worker(&mut self, alloc: Global) -> Result<Box<State>, u32> {
        self.collect();
        match self.deal_worker(alloc) {
            Ok(content) => Ok(content),
            Err(code) => Err(code),
        }
    }

    // Takes the first lane that is in its place, with its share of the lanes.
    fn deal_lane(&mut self, alloc: Global) -> Result<Box<State>, u32> {
        let Some(place) = first_full(&self.lanes) else {
            return Err(NONE_LEFT);
        };
        let Some(room) = room(alloc) else {
            return Err(OUT_OF_MEMORY);
        };
        let Ok(common) = Arc::try_clone(&self.common) else {
            return Err(OUT_OF_MEMORY);
        };
        let Some(kept) = take_from(&mut self.lanes, place) else {
            unreachable!()
        };
        let lane = kept.into_lane();
        Ok(filled(room, State::Lane(LaneSide { common, lane })))
    }

    // Takes the first worker that is in its place, with its share of the lanes.
    fn deal_worker(&mut self, alloc: Global) -> Result<Box<State>, u32> {
        let Some(place) = first_full(&self.workers) else {
            return Err(NONE_LEFT);
        };
        let Some(room) = room(alloc) else {
            return Err(OUT_OF_MEMORY);
        };
        let Ok(common) = Arc::try_clone(&self.common) else {
            return Err(OUT_OF_MEMORY);
        };
        let Some(kept) = take_from(&mut self.workers, place) else {
            unreachable!()
        };
        let worker = kept.into_worker();
        Ok(filled(room, State::Worker(WorkerSide { common, worker })))
    }
}
