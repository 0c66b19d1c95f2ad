//! The allocator of the program, and the error of a request for memory.

/// The error of a request for memory.
pub struct AllocError;

/// The same, with the value that there was no memory for.
pub struct AllocFailed<T> {
    pub value: T,
}

/// The allocator of the program.
#[derive(Clone, Copy, Debug)]
pub struct Global;
