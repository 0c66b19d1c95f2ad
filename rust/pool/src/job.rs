//! A closure whose address is one word, as a lane carries it.
//!
//! A job for which nobody can wait has one owner, and takes one allocation. Another one is shared:
//! by its lane, its ticket and its scope. The first of them that begins it runs it. The others then
//! find that it has begun.

use cubejobs::lanes;
use std::cell::UnsafeCell;
use std::mem::ManuallyDrop;
use std::ptr::NonNull;
use std::sync::atomic::{AtomicBool, Ordering::AcqRel, Ordering::Acquire};
use std::sync::Arc;

/// What a job does. It is dropped if it is never run.
pub(crate) trait Work: Send {
    fn run(self);
}

/// What an owner does with its share of a job. Each act except `Share` gives the share up.
#[derive(Clone, Copy, PartialEq, Eq)]
enum Act {
    /// Runs the work, unless it has begun.
    Run,
    /// Drops the work, unless it has begun.
    Drop,
    /// Leaves the work to other owners.
    Leave,
    /// Makes one share more.
    Share,
}

#[repr(C)]
struct Head {
    act: unsafe fn(NonNull<Head>, Act),
    /// Whether the work was run or dropped, or an owner is about to.
    has_begun: AtomicBool,
}

#[repr(C)]
struct Whole<W> {
    head: Head,
    work: UnsafeCell<ManuallyDrop<W>>,
}

/// Work that is to be run once, or dropped. A drop drops the work, unless another owner has begun.
pub(crate) struct Job(NonNull<Head>);

/// A share of a job that leaves the work to the other owners if it is dropped.
pub(crate) struct Awaited(NonNull<Head>);

// SAFETY: the constructors want work that is `Send`, and one owner alone touches the work.
unsafe impl Send for Job {}
// SAFETY: as for a job.
unsafe impl Send for Awaited {}
// SAFETY: a shared reference reads the claim, or makes a share of what is counted by atomics.
unsafe impl Sync for Awaited {}

/// Acts on a job that has one owner.
///
/// # Safety
/// The place is that of a `Box<Whole<W>>` that `alone` made, and this is the only call with it.
unsafe fn act_alone<W: Work>(place: NonNull<Head>, act: Act) {
    // SAFETY: as the caller promises. The head is the first field, so both have one address.
    let whole = unsafe { Box::from_raw(place.as_ptr().cast::<Whole<W>>()) };
    let Whole { work, .. } = *whole;
    do_with(ManuallyDrop::into_inner(work.into_inner()), act);
}

/// Acts on a job that has several owners.
///
/// # Safety
/// The place is that of an `Arc<Whole<W>>` of which the caller has a share. The call gives it up,
/// unless it makes one more.
unsafe fn act_shared<W: Work>(place: NonNull<Head>, act: Act) {
    let place = place.as_ptr().cast::<Whole<W>>().cast_const();
    if act == Act::Share {
        // SAFETY: the caller has a share.
        return unsafe { Arc::increment_strong_count(place) };
    }
    // SAFETY: the share of the caller is given up here.
    let whole = unsafe { Arc::from_raw(place) };
    if act == Act::Leave || whole.head.has_begun.swap(true, AcqRel) {
        return;
    }
    // SAFETY: this owner alone has found that the work had not begun. Nobody else touches it.
    let work = unsafe { ManuallyDrop::take(&mut *whole.work.get()) };
    drop(whole);
    do_with(work, act);
}

fn do_with<W: Work>(work: W, act: Act) {
    if act == Act::Run {
        work.run();
    }
}

impl Job {
    /// Makes a job for which nobody can wait.
    pub fn new<W: Work + 'static>(work: W) -> Self {
        Job(alone(work))
    }

    /// Makes a job of work that borrows.
    ///
    /// # Safety
    /// What the work borrows outlives the work, which is run or dropped before.
    pub unsafe fn scoped<W: Work>(work: W) -> Self {
        Job(alone(work))
    }

    /// Makes a job that somebody may wait for.
    pub fn awaited<W: Work + 'static>(work: W) -> (Self, Awaited) {
        let place = shared(work);
        (Job(place), Awaited(place))
    }

    /// Makes a job of work that borrows, for which somebody may wait.
    ///
    /// # Safety
    /// What the work borrows outlives the work, which is run or dropped before.
    pub unsafe fn scoped_awaited<W: Work>(work: W) -> (Self, Awaited) {
        let place = shared(work);
        (Job(place), Awaited(place))
    }

    pub fn run(self) {
        act(ManuallyDrop::new(self).0, Act::Run);
    }

    /// Returns whether another owner has begun the work.
    pub fn has_begun(&self) -> bool {
        has_begun(self.0)
    }

    /// Makes a job of work and passes it on. If the job comes back, returns the work with the
    /// reason.
    pub fn pass<W: Work + 'static, R>(
        work: W,
        pass: impl FnOnce(Self) -> Result<(), (R, Self)>,
    ) -> Result<(), (R, W)> {
        let place = alone(work);
        let Err((reason, back)) = pass(Job(place)) else { return Ok(()) };
        assert_eq!(back.0, place, "the job that comes back is the one that was passed on");
        let place = ManuallyDrop::new(back).0;
        // SAFETY: the place is that of `alone::<W>`, and the job that owned it is given up here.
        let whole = unsafe { Box::from_raw(place.as_ptr().cast::<Whole<W>>()) };
        Err((reason, ManuallyDrop::into_inner(whole.work.into_inner())))
    }

    /// Makes a job that somebody may wait for, and passes it on. If the job comes back, returns the
    /// work with the reason.
    pub fn pass_awaited<W: Work + 'static, R>(
        work: W,
        pass: impl FnOnce(Self) -> Result<(), (R, Self)>,
    ) -> Result<Awaited, (R, W)> {
        let (job, awaited) = Job::awaited(work);
        let Err((reason, back)) = pass(job) else { return Ok(awaited) };
        assert_eq!(back.0, awaited.0, "the job that comes back is the one that was passed on");
        drop(awaited);
        let place = ManuallyDrop::new(back).0.as_ptr().cast::<Whole<W>>().cast_const();
        // SAFETY: the place is that of `shared::<W>`, and the share of the job is given up here.
        let whole = unsafe { Arc::from_raw(place) };
        let whole = Arc::into_inner(whole).expect("a job that comes back has no other owner");
        Err((reason, ManuallyDrop::into_inner(whole.work.into_inner())))
    }

    pub fn into_word(self) -> u64 {
        ManuallyDrop::new(self).0.as_ptr() as usize as u64
    }

    /// Returns the job of a word that a worker took.
    pub fn taken(job: lanes::Job<u64>) -> Self {
        // SAFETY: each word in the pool's lanes is of `into_word`. The lanes give an accepted word
        // to one worker, once: that is their theorem.
        unsafe { Job::from_word(job.payload) }
    }

    /// Returns the job of a word that a lane refused.
    pub fn refused<R>(refused: lanes::Refused<R, u64>) -> Self {
        // SAFETY: the word is of `into_word`, and no lane has it.
        unsafe { Job::from_word(refused.payload) }
    }

    /// Returns the job of a word.
    ///
    /// # Safety
    /// The word is of `into_word`, and this is the only call with it.
    unsafe fn from_word(word: u64) -> Self {
        Job(NonNull::new(word as usize as *mut Head).expect("the word of a job is no null pointer"))
    }
}

impl Awaited {
    /// Returns whether an owner has begun the work.
    pub fn has_begun(&self) -> bool {
        has_begun(self.0)
    }

    /// Returns this share as a job, which runs or drops the work unless it has begun.
    pub fn into_job(self) -> Job {
        Job(ManuallyDrop::new(self).0)
    }
}

impl Clone for Awaited {
    fn clone(&self) -> Self {
        act(self.0, Act::Share);
        Awaited(self.0)
    }
}

impl Drop for Awaited {
    fn drop(&mut self) {
        act(self.0, Act::Leave);
    }
}

impl Drop for Job {
    fn drop(&mut self) {
        act(self.0, Act::Drop);
    }
}

/// Puts work that has one owner into a place of its own.
fn alone<W: Work>(work: W) -> NonNull<Head> {
    NonNull::from(Box::leak(Box::new(whole(work, act_alone::<W>)))).cast()
}

/// Puts work into a place with two owners.
fn shared<W: Work>(work: W) -> NonNull<Head> {
    let place = Arc::into_raw(Arc::new(whole(work, act_shared::<W>)));
    let place = NonNull::new(place.cast_mut().cast::<Head>()).expect("a place is no null pointer");
    act(place, Act::Share);
    place
}

fn whole<W: Work>(work: W, act: unsafe fn(NonNull<Head>, Act)) -> Whole<W> {
    let head = Head { act, has_begun: AtomicBool::new(false) };
    Whole { head, work: UnsafeCell::new(ManuallyDrop::new(work)) }
}

/// Acts on the job at a place. Only an owner calls it, and gives its share up as `Act` says.
fn act(place: NonNull<Head>, act: Act) {
    // SAFETY: the places in this module are those of jobs, and an owner keeps its place whole. The
    // owners of a `Box` never share it: `Job` alone has such a place, and it is no `Clone`.
    unsafe { (place.as_ref().act)(place, act) }
}

fn has_begun(place: NonNull<Head>) -> bool {
    // SAFETY: an owner calls this, and keeps its place whole.
    unsafe { place.as_ref() }.has_begun.load(Acquire)
}

#[cfg(test)]
mod tests {
    use super::{Job, Work};
    use std::sync::atomic::{AtomicU32, Ordering::SeqCst};
    use std::sync::Arc;

    #[derive(Default)]
    struct Counters {
        runs: AtomicU32,
        drops: AtomicU32,
    }

    struct Counts(Arc<Counters>);

    impl Work for Counts {
        fn run(self) {
            self.0.runs.fetch_add(1, SeqCst);
        }
    }

    impl Drop for Counts {
        fn drop(&mut self) {
            self.0.drops.fetch_add(1, SeqCst);
        }
    }

    /// Returns how often work was run and dropped in a call.
    fn counted(call: impl FnOnce(&dyn Fn() -> Counts)) -> (u32, u32) {
        let counters = Arc::new(Counters::default());
        call(&|| Counts(counters.clone()));
        assert_eq!(Arc::strong_count(&counters), 1, "no work is left");
        (counters.runs.load(SeqCst), counters.drops.load(SeqCst))
    }

    #[test]
    fn work_is_run_once_or_dropped_once() {
        assert_eq!(counted(|work| Job::new(work()).run()), (1, 1));
        assert_eq!(counted(|work| drop(Job::new(work()))), (0, 1));
        let refused = |work: &dyn Fn() -> Counts| {
            let (reason, work) = Job::pass(work(), |job| Err(("no", job))).unwrap_err();
            assert_eq!((reason, work.0.drops.load(SeqCst)), ("no", 0));
        };
        assert_eq!(counted(refused), (0, 1));
    }

    #[test]
    fn one_owner_of_several_runs_the_work() {
        let by_lane = |work: &dyn Fn() -> Counts| {
            let (job, awaited) = Job::awaited(work());
            let other = awaited.clone();
            assert!(!awaited.has_begun() && !job.has_begun());
            job.run();
            assert!(awaited.has_begun());
            awaited.into_job().run();
            drop(other.into_job());
        };
        assert_eq!(counted(by_lane), (1, 1));
        let by_ticket = |work: &dyn Fn() -> Counts| {
            let (job, awaited) = Job::awaited(work());
            awaited.into_job().run();
            assert!(job.has_begun());
            job.run();
        };
        assert_eq!(counted(by_ticket), (1, 1));
        let left = |work: &dyn Fn() -> Counts| {
            let (job, awaited) = Job::awaited(work());
            drop(awaited);
            drop(job);
        };
        assert_eq!(counted(left), (0, 1));
        let refused = |work: &dyn Fn() -> Counts| {
            let (reason, work) = Job::pass_awaited(work(), |job| Err(("no", job))).err().unwrap();
            assert_eq!((reason, work.0.drops.load(SeqCst)), ("no", 0));
        };
        assert_eq!(counted(refused), (0, 1));
    }
}
