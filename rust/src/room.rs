//! What the handles of one set of lanes share.
//!
//! The library wants all lanes and workers back before lanes end, and only its owner ends them. So
//! each handle here shares the `Room`, which has the owner. The last handle that is dropped ends
//! the lanes. A worker that cannot go back, since it sleeps, waits in the room.

#[cfg(feature = "std")]
use crate::event::Event;
use crate::lanes_ffi::{self as ffi, Handle, Job, Lane, Lanes, Numbered, OneLane, OneWorker};
#[cfg(feature = "std")]
use crate::parking::Parking;
use crate::payload::Payload;
use crate::place::{pause, Apart, Place};
use alloc::vec::Vec;
use core::cmp::Reverse;
use core::marker::PhantomData;

/// A handle that is not back when lanes are to end. See [`StillOut`](crate::lanes::StillOut).
#[derive(Clone, Copy, Debug, PartialEq, Eq)]
#[non_exhaustive]
pub enum Out {
    /// The producer's handle of the lane with this number.
    Lane(u32),
    /// The handle of the worker with this number.
    Worker(u32),
}

struct Inner {
    owner: Lanes,
    // Workers that wait for the next caller that wants one: at most one for each worker, so no push
    // takes memory.
    left: Vec<OneWorker>,
    // Jobs of workers that were left, once the lanes have ended. The first one is the last here.
    jobs: Vec<Job>,
    has_ended: bool,
}

pub struct Room<P: Payload> {
    inner: Apart<Place<Inner>>,
    #[cfg(feature = "std")]
    pub parking: Parking,
    // Raised when a lane may have a place for one more job.
    #[cfg(feature = "std")]
    pub event: Event,
    pub lanes: u32,
    // Payloads go in and out, so that lanes of one type are not lanes of another one.
    payload: PhantomData<fn(P) -> P>,
}

impl<P: Payload> Room<P> {
    /// Opens lanes. Returns the code of the refusal if they are refused.
    pub fn open(sizes: ffi::Sizes) -> Result<Self, u32> {
        let mut inner = Inner { owner: Handle::SHUT, left: Vec::new(), jobs: Vec::new(), has_ended: false };
        let is_in_range = (1..=ffi::MAX_WORKERS).contains(&sizes.workers);
        let (lanes, workers) = (sizes.lanes, if is_in_range { sizes.workers } else { 0 });
        inner.left.try_reserve_exact(workers as usize).map_err(|_| ffi::OUT_OF_MEMORY)?;
        #[cfg(feature = "std")]
        let parking = Parking::new(workers).ok_or(ffi::OUT_OF_MEMORY)?;
        match ffi::cubejobs_lanes_open_version(&mut inner.owner, ffi::VERSION, sizes) {
            ffi::DONE => Ok(Room {
                inner: Apart(Place::new(inner)),
                #[cfg(feature = "std")]
                parking,
                #[cfg(feature = "std")]
                event: Event::default(),
                lanes,
                payload: PhantomData,
            }),
            code => Err(code),
        }
    }

    /// Returns a producer's handle, or the code of the refusal.
    pub fn lane(&self) -> Result<OneLane, u32> {
        let mut lane = Handle::<Lane>::SHUT;
        match ffi::cubejobs_lanes_lane(&mut self.inner.wait().owner, &mut lane) {
            ffi::DONE => Ok(lane),
            code => Err(code),
        }
    }

    /// Returns a worker's handle and its number, or the code of the refusal. Workers that were left
    /// come first.
    pub fn worker(&self) -> Result<(OneWorker, u32), u32> {
        let mut inner = self.inner.wait();
        let mut worker = match inner.left.pop() {
            Some(left) => left,
            None => {
                let mut worker = Handle::SHUT;
                match ffi::cubejobs_lanes_worker(&mut inner.owner, &mut worker) {
                    ffi::DONE => worker,
                    code => return Err(code),
                }
            }
        };
        let number = ffi::cubejobs_lanes_worker_number(&mut worker).number;
        Ok((worker, number))
    }

    /// Gives a worker back, or leaves it here if it sleeps.
    pub fn free_worker(&self, worker: &mut OneWorker) {
        if ffi::cubejobs_lanes_free_worker(worker) != ffi::DONE {
            let worker = core::mem::replace(worker, Handle::SHUT);
            self.inner.wait().left.push(worker);
        }
    }

    /// Closes the lanes. Returns the number of accepted jobs, or `None` if they were closed.
    pub fn close(&self) -> Option<u64> {
        let closed = ffi::cubejobs_lanes_close(&mut self.inner.wait().owner);
        #[cfg(feature = "std")]
        self.parking.unpark_all();
        self.raise();
        (closed.code == ffi::DONE).then_some(closed.accepted)
    }

    /// Wakes a worker for the last job of a lane, if one is to wake. Returns its number.
    pub fn wake(&self, lane: &mut OneLane) -> Option<u32> {
        loop {
            let Numbered { code, number } = ffi::cubejobs_lanes_wake(lane);
            match code {
                ffi::DONE => return self.unpark(number),
                ffi::AGAIN => pause(),
                ffi::NOBODY => return None,
                code => unreachable!("a wake has no code {code}"),
            }
        }
    }

    /// Wakes the thread of the worker with this number, if it is one.
    #[allow(clippy::unused_self)] // without the feature `std` no thread sleeps here
    pub fn unpark(&self, worker: u32) -> Option<u32> {
        if worker == ffi::NO_WORKER {
            return None;
        }
        #[cfg(feature = "std")]
        self.parking.unpark(worker);
        Some(worker)
    }

    /// Wakes the submits that wait for a place, after a take has made one free.
    #[allow(clippy::unused_self)] // without the feature `std` no thread sleeps here
    pub fn raise(&self) {
        #[cfg(feature = "std")]
        self.event.raise();
    }

    /// Ends the lanes, if all handles are back.
    pub fn finish(&self) -> Result<(), Out> {
        self.close();
        end(&mut self.inner.wait())
    }

    /// Returns the next job that is left in ended lanes.
    pub fn rest(&self) -> Option<Job> {
        rest(&mut self.inner.wait())
    }
}

/// Ends closed lanes, if all handles are back. First the workers that are left go back, and their
/// jobs are kept here.
fn end(inner: &mut Inner) -> Result<(), Out> {
    if inner.has_ended {
        return Ok(());
    }
    while let Some(left) = inner.left.last_mut() {
        let is_back = ffi::cubejobs_lanes_free_worker(left) == ffi::DONE;
        if is_back {
            inner.left.pop();
            continue;
        }
        let out = Out::Worker(ffi::cubejobs_lanes_worker_number(left).number);
        inner.jobs.try_reserve(1).map_err(|_| out)?;
        let ffi::Found { code, lane, dim, seq, payload, left, .. } = ffi::cubejobs_lanes_find(left, 0);
        match code {
            ffi::DONE => inner.jobs.push(Job { code, lane, dim, seq, payload, left }),
            ffi::ENDED | ffi::AGAIN => {}
            _ => return Err(out),
        }
    }
    inner.jobs.sort_unstable_by_key(|job| Reverse((job.lane, job.seq)));
    loop {
        let Numbered { code, number } = ffi::cubejobs_lanes_finish(&mut inner.owner);
        match code {
            ffi::DONE => {
                inner.has_ended = true;
                return Ok(());
            }
            ffi::LANE_OUT => return Err(Out::Lane(number)),
            ffi::WORKER_OUT => return Err(Out::Worker(number)),
            // Another thread is about to end the call that gave its handle back.
            ffi::STILL_SHARED => pause(),
            code => unreachable!("a finish has no code {code}"),
        }
    }
}

fn rest(inner: &mut Inner) -> Option<Job> {
    inner.jobs.pop().or_else(|| {
        let job = ffi::cubejobs_lanes_rest(&mut inner.owner);
        (job.code == ffi::DONE).then_some(job)
    })
}

impl<P: Payload> Drop for Room<P> {
    fn drop(&mut self) {
        let inner = self.inner.get_mut();
        ffi::cubejobs_lanes_close(&mut inner.owner);
        // No handle is out, since each one shares the room. If a worker that was left cannot go
        // back, nothing is freed.
        if end(inner).is_err() {
            return;
        }
        while let Some(job) = rest(inner) {
            // SAFETY: a submit of these lanes made the word of a `P`, and a job is left once.
            drop(unsafe { P::from_word(job.payload) });
        }
        ffi::cubejobs_lanes_free(&mut inner.owner);
    }
}
