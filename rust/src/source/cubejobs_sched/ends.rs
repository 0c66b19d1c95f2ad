// Made from crates/cubejobs_sched/src/ends.rt by checks/lib/erase.py. Change that file.
//! How a scheduler begins and ends, by the place of a handle's content.

use crate::source::kit::prelude::{Box};

use crate::source::cubejobs_sched::options::SchedOptions;
use crate::source::cubejobs_sched::ownership::Ownership;
use crate::source::cubejobs_sched::state::State;
use crate::source::sched_board::ThreadSizes;
use crate::source::sched_threads::{NotNow, Threads, TurnReceipt};
use crate::source::kit::alloc::Global;

// Opens a scheduler in a place of its own. Returns `None` if memory ran out.
pub(crate) fn opened(alloc: Global, options: SchedOptions) -> Option<Box<State>> {
    let sizes = ThreadSizes {
        dim: options.dim,
        jobs: options.jobs as usize,
        patience: options.patience,
        workers: options.workers,
    };
    let Ok(threads) = Threads::new(alloc, sizes) else {
        return None;
    };
    match Box::new(alloc, State::Threads(Ownership::Sole(threads))) {
        Ok(place) => Some(place),
        Err(failed) => {
            drop(failed);
            None
        }
    }
}

// Makes another handle of the scheduler of a place. Where memory runs out, the first place alone.
pub(crate) fn share(alloc: Global, place: Box<State>) -> (Box<State>, Option<Box<State>>) {
    let mut place = place;
    let mut other = match Box::new(alloc, State::Taken) {
        Ok(other) => other,
        Err(failed) => {
            drop(failed);
            return (place, None);
        }
    };
    let State::Threads(owner) = Box::replace(&mut place, State::Taken) else {
        unreachable!()
    };
    let (owner, another) = owner.share(alloc);
    let _taken = Box::replace(&mut place, State::Threads(owner));
    match another {
        None => (place, None),
        Some(another) => {
            let _none = Box::replace(&mut other, State::Threads(another));
            (place, Some(other))
        }
    }
}

// Returns whether the scheduler is in use: a thread is a worker, a job waits or runs, or a thread
// has the turn.
fn look_for_use(threads: &Threads) -> (bool, TurnReceipt) {
    match threads.is_used() {
        Ok((used, receipt)) => (used, receipt),
        Err(NotNow { receipt }) => (true, receipt),
    }
}

// Lets the handle of a place go. The last one frees the scheduler, unless it is in use: then it
// returns the place. Returns the receipt of the turn that looked for use, if there was one.
pub(crate) fn freed(place: Box<State>) -> Result<Option<TurnReceipt>, (Box<State>, TurnReceipt)> {
    let mut place = place;
    let State::Threads(owner) = Box::replace(&mut place, State::Taken) else {
        unreachable!()
    };
    let Some(threads) = owner.into_last() else {
        return Ok(None);
    };
    let (used, receipt) = look_for_use(&threads);
    if !used {
        return Ok(Some(receipt));
    }
    let _taken = Box::replace(&mut place, State::Threads(Ownership::Sole(threads)));
    Err((place, receipt))
}
