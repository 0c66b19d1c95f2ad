// Made from crates/cubejobs_regions/src/ends.rt by checks/lib/erase.py. Change that file.
//! How a machine begins and ends, by the place of a handle's content.

use crate::source::kit::prelude::{Box};

use crate::source::cubejobs_regions::common::Common;
use crate::source::cubejobs_regions::machine::Machine;
use crate::source::cubejobs_regions::ownership::Ownership;
use crate::source::cubejobs_regions::state::State;
use crate::source::bitmap_tree::{BitmapTree, BlankSeat};
use crate::source::kit::alloc::Global;

// Opens a machine of dimension `n` in a place of its own. Returns `None` if memory ran out.
pub(crate) fn machine_of(alloc: Global, n: u32, number: u64) -> Option<Box<State>> {
    let tree = match BitmapTree::open(alloc, n) {
        Ok(tree) => tree,
        Err(_) => return None,
    };
    let start = tree.start_of(0);
    let machine = Machine {
        owner: Ownership::Sole(Common { tree, number }),
        start,
        next: 1,
    };
    match Box::new(alloc, State::Machine(machine)) {
        Ok(place) => Some(place),
        Err(failed) => {
            drop(failed);
            None
        }
    }
}

// Makes another handle of a machine, for the next thread. Where memory runs out, the first alone.
fn share_machine(alloc: Global, machine: Machine) -> (Machine, Option<Machine>) {
    let Machine { owner, start, next } = machine;
    let (owner, another) = owner.share(alloc);
    let first = Machine {
        owner,
        start,
        next: next.wrapping_add(1),
    };
    match another {
        None => (first, None),
        Some(owner) => (first, Some(next_machine(owner, next))),
    }
}

// Makes a handle's part of a machine, for a thread of this number.
fn next_machine(owner: Ownership, thread: u32) -> Machine {
    let start = owner.get().tree.start_of(thread);
    Machine {
        owner,
        start,
        next: thread.wrapping_add(1),
    }
}

// Makes another handle of the machine of a place. Where memory runs out, the first place alone.
pub(crate) fn share(alloc: Global, place: Box<State>) -> (Box<State>, Option<Box<State>>) {
    let mut place = place;
    let mut other = match Box::new(alloc, State::Taken) {
        Ok(other) => other,
        Err(failed) => {
            drop(failed);
            return (place, None);
        }
    };
    let State::Machine(machine) = Box::replace(&mut place, State::Taken) else {
        unreachable!()
    };
    let (machine, another) = share_machine(alloc, machine);
    let _taken = Box::replace(&mut place, State::Machine(machine));
    match another {
        None => (place, None),
        Some(another) => {
            let _none = Box::replace(&mut other, State::Machine(another));
            (place, Some(other))
        }
    }
}

// Frees a machine if no block of it is held, by a take of the whole. Otherwise returns it. Also
// returns the seat of the call.
fn end(common: Common, start: u64) -> Result<BlankSeat, (Machine, BlankSeat)> {
    match common.tree.take_exact(common.tree.dim(), start) {
        Ok(held) => Ok(common.tree.release(held).into_seat()),
        Err(refused) => {
            let machine = Machine {
                owner: Ownership::Sole(common),
                start,
                next: 1,
            };
            Err((machine, refused.into_seat()))
        }
    }
}

// Frees the handle of a place. The last one frees the machine, and returns the seat of the call. It
// returns the place too if a block is held.
pub(crate) fn free(place: Box<State>) -> Result<Option<BlankSeat>, (Box<State>, BlankSeat)> {
    let mut place = place;
    let State::Machine(machine) = Box::replace(&mut place, State::Taken) else {
        unreachable!()
    };
    let Machine {
        owner,
        start,
        next: _,
    } = machine;
    let Some(common) = owner.into_last() else {
        return Ok(None);
    };
    match end(common, start) {
        Ok(seat) => Ok(Some(seat)),
        Err((machine, seat)) => {
            let _taken = Box::replace(&mut place, State::Machine(machine));
            Err((place, seat))
        }
    }
}
