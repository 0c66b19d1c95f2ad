//! Why a job was not accepted, or was dropped.

use std::error::Error;
use std::fmt;

/// The reason why a job was not accepted. See [`Refused`].
///
/// ```
/// use cubejobs_pool::{Pool, Reason};
///
/// let pool = Pool::builder().workers_log2(2).build()?; // 4 workers
/// assert_eq!(pool.try_submit(3, |_| ()).unwrap_err().reason, Reason::TooWide);
/// assert_eq!(Reason::TooWide.to_string(), "the group is larger than the pool");
/// # Ok::<(), std::io::Error>(())
/// ```
#[derive(Clone, Copy, Debug, PartialEq, Eq)]
#[non_exhaustive]
pub enum Reason {
    /// The lane has as many jobs as its capacity.
    Full,
    /// The pool is closed.
    Closed,
    /// The group is larger than the pool.
    TooWide,
}

/// A job that was not accepted, with its closure.
///
/// ```
/// use cubejobs_pool::{Pool, Reason};
///
/// let pool = Pool::builder().workers_log2(1).build()?;
/// let refused = pool.submit(2, |group| group.rank()).unwrap_err();
/// assert_eq!(refused.reason, Reason::TooWide);
/// let ranks = pool.submit(1, refused.job).unwrap().join_all().unwrap();
/// assert_eq!(ranks, [0, 1]);
/// # Ok::<(), std::io::Error>(())
/// ```
#[non_exhaustive]
pub struct Refused<F> {
    /// The reason.
    pub reason: Reason,
    /// The closure, which was not called.
    pub job: F,
}

/// The payload of a job that [`Pool::close_now`](crate::Pool::close_now) dropped before it began.
/// [`Ticket::join`](crate::Ticket::join) returns it as the error.
///
/// ```
/// # let pool = cubejobs_pool::Pool::builder().build()?;
/// let ticket = pool.spawn(|| 7);
/// pool.close_now();
/// match ticket.join() {
///     Ok(number) => assert_eq!(number, 7), // it had begun
///     Err(payload) => assert!(payload.is::<cubejobs_pool::Cancelled>()),
/// }
/// # Ok::<(), std::io::Error>(())
/// ```
#[derive(Clone, Copy, Debug, PartialEq, Eq)]
#[non_exhaustive]
pub struct Cancelled;

/// The error of a pool that has no lane left for another [`Client`](crate::Client).
///
/// ```
/// use cubejobs_pool::{ClientError, Pool};
///
/// let pool = Pool::builder().client_lanes(0).build()?;
/// assert_eq!(pool.client().unwrap_err(), ClientError::NoneLeft);
/// # Ok::<(), std::io::Error>(())
/// ```
#[derive(Clone, Copy, Debug, PartialEq, Eq)]
#[non_exhaustive]
pub enum ClientError {
    /// All lanes for clients are out. See
    /// [`Builder::client_lanes`](crate::Builder::client_lanes).
    NoneLeft,
}

impl fmt::Display for Reason {
    fn fmt(&self, f: &mut fmt::Formatter<'_>) -> fmt::Result {
        f.write_str(match self {
            Reason::Full => "the lane is full",
            Reason::Closed => "the pool is closed",
            Reason::TooWide => "the group is larger than the pool",
        })
    }
}

impl<F> fmt::Debug for Refused<F> {
    fn fmt(&self, f: &mut fmt::Formatter<'_>) -> fmt::Result {
        f.debug_struct("Refused").field("reason", &self.reason).finish_non_exhaustive()
    }
}

impl<F> fmt::Display for Refused<F> {
    fn fmt(&self, f: &mut fmt::Formatter<'_>) -> fmt::Result {
        self.reason.fmt(f)
    }
}

impl fmt::Display for Cancelled {
    fn fmt(&self, f: &mut fmt::Formatter<'_>) -> fmt::Result {
        f.write_str("the pool was closed before the job began")
    }
}

impl fmt::Display for ClientError {
    fn fmt(&self, f: &mut fmt::Formatter<'_>) -> fmt::Result {
        f.write_str(match self {
            ClientError::NoneLeft => "all lanes for clients are out",
        })
    }
}

impl Error for Reason {}
impl<F> Error for Refused<F> {}
impl Error for Cancelled {}
impl Error for ClientError {}
