// Made from crates/cubejobs_lanes/src/kinds.rt by checks/lib/erase.py. Change that file.
//! Whether a handle is of the kind that a call needs.

use crate::source::cubejobs_lanes::codes::{ASLEEP, DONE, FINISHED, NOT_FINISHED, NOT_OPEN, OTHER_KIND};
use crate::source::cubejobs_lanes::handle::Handle;
use crate::source::cubejobs_lanes::state::State;

impl Handle {
    // Returns why a call of the owner of lanes is refused, or `DONE`.
    pub(crate) fn owner_code(&mut self) -> u32 {
        if !self.is_open() {
            return NOT_OPEN;
        }
        match self.ptr.get_mut() {
            State::Owner(_) => DONE,
            State::Left(_) => FINISHED,
            _ => OTHER_KIND,
        }
    }

    // Returns why a call of a producer is refused, or `DONE`.
    pub(crate) fn lane_code(&mut self) -> u32 {
        if !self.is_open() {
            return NOT_OPEN;
        }
        match self.ptr.get_mut() {
            State::Lane(_) => DONE,
            _ => OTHER_KIND,
        }
    }

    // Returns why a call that needs a worker which is awake is refused, or `DONE`.
    pub(crate) fn worker_code(&mut self) -> u32 {
        if !self.is_open() {
            return NOT_OPEN;
        }
        match self.ptr.get_mut() {
            State::Worker(_) => DONE,
            State::Sleeper(_) => ASLEEP,
            _ => OTHER_KIND,
        }
    }

    // Returns why a call after the end of lanes is refused, or `DONE`.
    pub(crate) fn left_code(&mut self) -> u32 {
        if !self.is_open() {
            return NOT_OPEN;
        }
        match self.ptr.get_mut() {
            State::Left(_) => DONE,
            State::Owner(_) => NOT_FINISHED,
            _ => OTHER_KIND,
        }
    }
}
