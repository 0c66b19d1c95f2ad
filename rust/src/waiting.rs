//! Takes of blocks that sleep until they succeed.

use crate::event::Event;
use crate::regions::TakeError;
use crate::regions_ffi::{self as ffi, Answer, BlockHandle, Handle};
use std::time::Instant;

/// A quick or an exact take of a block of some dimension.
pub type Take = fn(&mut Handle, &mut BlockHandle, u32) -> Answer;

/// Makes a quick take by `make`, and then exact ones until one is not refused for want of a block.
/// It makes one more after the deadline, if there is one. Returns the answer of the last take, or
/// `Stopped` or `TimedOut`.
pub fn take(
    event: &Event,
    deadline: Option<Instant>,
    mut make: impl FnMut(Take) -> Answer,
) -> Result<Answer, TakeError> {
    if event.is_stopped() {
        return Err(TakeError::Stopped);
    }
    let mut answer = make(ffi::take);
    // This is for the quick take. Waiters make their exact takes in turn, so these hide nothing
    // from each other, whether they are granted or refused.
    event.raise();
    while answer.code() == ffi::NO_ROOM || answer.code() == ffi::NOT_NOW {
        let is_last = deadline.is_some_and(|it| it <= Instant::now());
        // A stop after this look wakes the thread, since it has read its key before.
        let exact = || (!event.is_stopped()).then(|| make(ffi::take_exact));
        let (taken, key) = event.in_turn(exact);
        answer = taken.ok_or(TakeError::Stopped)?;
        match answer.code() {
            ffi::NO_ROOM | ffi::NOT_NOW if is_last => return Err(TakeError::TimedOut),
            ffi::NO_ROOM => event.wait(key, deadline),
            ffi::NOT_NOW => std::thread::yield_now(),
            _ => {}
        }
    }
    Ok(answer)
}
