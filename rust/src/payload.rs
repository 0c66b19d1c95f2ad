//! What a job carries.

use alloc::boxed::Box;

/// What a job carries: a `u64`, or a `Box` of yours. It is one word in the lane.
///
/// A box is given to the lane by an accepted submit. It comes back once: from the worker that takes
/// the job, or as a job that is left. Only this package implements this trait.
///
/// ```
/// use cubejobs::lanes::{Lanes, Sizes};
///
/// let lanes = Lanes::<Box<String>>::new(Sizes { lanes: 1, workers: 1, capacity: 8 })?;
/// let (mut lane, mut worker) = (lanes.lane()?, lanes.worker()?);
/// lane.submit(Box::new("a job".to_string()), 0).unwrap();
/// assert_eq!(*worker.take_any(0)?.payload, "a job");
/// # Ok::<(), Box<dyn std::error::Error>>(())
/// ```
#[diagnostic::on_unimplemented(
    message = "a job cannot carry `{Self}`",
    note = "a job carries a `u64`, or a `Box` of what can be sent to another thread"
)]
pub trait Payload: Send + Word {}

impl Payload for u64 {}
impl<T: Send> Payload for Box<T> {}

/// A value that is a word of 64 bits on its way. The trait is private, so no other package
/// implements it.
pub trait Word: Sized {
    /// Returns the word of a value.
    fn into_word(self) -> u64;

    /// Returns the value of a word.
    ///
    /// # Safety
    /// The word is of `into_word`, and no other call gets it.
    unsafe fn from_word(word: u64) -> Self;
}

impl Word for u64 {
    fn into_word(self) -> u64 {
        self
    }

    unsafe fn from_word(word: u64) -> Self {
        word
    }
}

impl<T> Word for Box<T> {
    fn into_word(self) -> u64 {
        Box::into_raw(self) as usize as u64
    }

    unsafe fn from_word(word: u64) -> Self {
        // SAFETY: as the caller promises, the word is the address of a box that was made a raw
        // pointer. It becomes a box this once. `into_word` has exposed the pointer by its cast.
        unsafe { Box::from_raw(word as usize as *mut T) }
    }
}
