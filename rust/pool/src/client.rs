//! A producer with lanes of its own.

use crate::error::{ClientError, Refused};
use crate::group::Group;
use crate::job::Job;
use crate::pool::{submit_gang, Detached, One};
use crate::shared::{GangWord, Shared, Wait};
use crate::ticket::{Packet, Promise, Ticket};
use crate::util::lock;
use cubejobs::lanes::Lane;
use std::fmt;
use std::sync::Arc;

/// A producer with a lane of its own for one-worker jobs, and one for gangs. Workers take its jobs
/// in their order, but a job that is waited for may run before others. Its gangs go their own way:
/// see [`Pool::submit`](crate::Pool::submit).
///
/// It needs no turn with other threads, so it is the fastest way into a pool. It may outlive the
/// pool. If it is dropped, its lanes are for the next client, and its jobs are run. See
/// [`Pool::client`](crate::Pool::client).
///
/// ```
/// # let pool = cubejobs_pool::Pool::builder().workers_log2(2).build()?;
/// let mut client = pool.client().unwrap();
/// let producer = std::thread::spawn(move || client.spawn(|| 7).unwrap().join().unwrap());
/// assert_eq!(producer.join().unwrap(), 7);
/// # Ok::<(), std::io::Error>(())
/// ```
pub struct Client {
    pool: Arc<Shared>,
    /// The lanes, until the drop.
    producer: Option<Producer>,
}

/// The lanes of a client: for one-worker jobs and for gangs. Threads sleep in the rooms of its
/// place until they have room.
pub(crate) struct Producer {
    pub place: usize,
    pub ones: Lane<u64>,
    pub gangs: Lane<GangWord>,
}

impl Client {
    pub(crate) fn new(pool: &Arc<Shared>) -> Result<Self, ClientError> {
        let producer = lock(&pool.producers).pop().ok_or(ClientError::NoneLeft)?;
        Ok(Client { pool: pool.clone(), producer: Some(producer) })
    }

    /// Returns the pool, and the lanes.
    fn parts(&mut self) -> (&Shared, &mut Producer) {
        (&self.pool, self.producer.as_mut().expect("a client has lanes until it is dropped"))
    }

    /// Runs `call` on one worker. If the lane is full, it sleeps until there is room.
    ///
    /// # Errors
    ///
    /// The reason is `Closed`, or `Full` in a worker of the pool, which never waits for room. The
    /// closure comes back.
    ///
    /// ```
    /// # let pool = cubejobs_pool::Pool::builder().workers_log2(0).build()?;
    /// use std::sync::mpsc::channel;
    ///
    /// let mut client = pool.client().unwrap();
    /// let (sender, receiver) = channel();
    /// for number in 0..3 {
    ///     let sender = sender.clone();
    ///     client.spawn(move || sender.send(number)).unwrap().join().unwrap()?;
    /// }
    /// drop(sender);
    /// assert_eq!(receiver.iter().collect::<Vec<_>>(), [0, 1, 2]);
    /// # Ok::<(), Box<dyn std::error::Error>>(())
    /// ```
    pub fn spawn<F, T>(&mut self, call: F) -> Result<Ticket<T>, Refused<F>>
    where
        F: FnOnce() -> T + Send + 'static,
        T: Send + 'static,
    {
        self.submit_one(call, true)
    }

    /// Runs `call` on one worker, as [`Client::spawn`] does. It never waits.
    ///
    /// # Errors
    ///
    /// The reason is `Full` or `Closed`. The closure comes back.
    ///
    /// ```
    /// use cubejobs_pool::{Pool, Reason};
    ///
    /// let pool = Pool::builder().build()?;
    /// let mut client = pool.client().unwrap();
    /// pool.close();
    /// let refused = client.try_spawn(|| 7).unwrap_err();
    /// assert_eq!((refused.reason, (refused.job)()), (Reason::Closed, 7));
    /// # Ok::<(), std::io::Error>(())
    /// ```
    pub fn try_spawn<F, T>(&mut self, call: F) -> Result<Ticket<T>, Refused<F>>
    where
        F: FnOnce() -> T + Send + 'static,
        T: Send + 'static,
    {
        self.submit_one(call, false)
    }

    /// Runs `call` on one worker, as [`Client::spawn`] does, without a ticket.
    ///
    /// # Errors
    ///
    /// Those of [`Client::spawn`].
    ///
    /// ```
    /// # let pool = cubejobs_pool::Pool::builder().workers_log2(2).build()?;
    /// let mut client = pool.client().unwrap();
    /// let (sender, receiver) = std::sync::mpsc::channel();
    /// client.detach(move || sender.send(7).unwrap()).unwrap();
    /// assert_eq!(receiver.recv(), Ok(7));
    /// # Ok::<(), std::io::Error>(())
    /// ```
    pub fn detach<F: FnOnce() + Send + 'static>(&mut self, call: F) -> Result<(), Refused<F>> {
        let (pool, producer) = self.parts();
        let passed = Job::pass(Detached(call), |job| pool.submit_by_client(producer, job, true));
        passed.map_err(|(reason, Detached(call))| Refused { reason, job: call })
    }

    /// Runs `call` as a gang, as [`Pool::submit`](crate::Pool::submit) does.
    ///
    /// # Errors
    ///
    /// The reason is the first of these that applies: `TooWide`, `Closed`, or `Full` at a worker of
    /// the pool. The closure comes back.
    ///
    /// ```
    /// # let pool = cubejobs_pool::Pool::builder().workers_log2(2).build()?;
    /// let mut client = pool.client().unwrap();
    /// let producer = std::thread::spawn(move || {
    ///     let gang = client.submit(1, |group| group.exchange(1 - group.rank(), group.rank()));
    ///     gang.unwrap().join_all().unwrap()
    /// });
    /// assert_eq!(producer.join().unwrap(), [1, 0]);
    /// # Ok::<(), std::io::Error>(())
    /// ```
    pub fn submit<F, T>(&mut self, dim: u32, call: F) -> Result<Ticket<T>, Refused<F>>
    where
        F: Fn(&Group<'_>) -> T + Send + Sync + 'static,
        T: Send + 'static,
    {
        self.submit_gang(dim, call, Wait::Outside)
    }

    /// Runs `call` as a gang, as [`Client::submit`] does. It never waits.
    ///
    /// # Errors
    ///
    /// The reason is the first of these that applies: `TooWide`, `Closed`, `Full`. The closure
    /// comes back.
    ///
    /// ```
    /// use cubejobs_pool::{Pool, Reason};
    ///
    /// let pool = Pool::builder().workers_log2(2).build()?;
    /// let mut client = pool.client().unwrap();
    /// let gang = client.try_submit(2, |group| group.rank()).unwrap();
    /// assert_eq!(gang.join_all().unwrap(), [0, 1, 2, 3]);
    /// pool.close();
    /// let refused = client.try_submit(2, |group| group.rank()).unwrap_err();
    /// assert_eq!(refused.reason, Reason::Closed);
    /// # Ok::<(), std::io::Error>(())
    /// ```
    pub fn try_submit<F, T>(&mut self, dim: u32, call: F) -> Result<Ticket<T>, Refused<F>>
    where
        F: Fn(&Group<'_>) -> T + Send + Sync + 'static,
        T: Send + 'static,
    {
        self.submit_gang(dim, call, Wait::Never)
    }

    fn submit_gang<F, T>(&mut self, dim: u32, call: F, wait: Wait) -> Result<Ticket<T>, Refused<F>>
    where
        F: Fn(&Group<'_>) -> T + Send + Sync + 'static,
        T: Send + 'static,
    {
        let (pool, Producer { place, gangs, .. }) = self.parts();
        let submit = |gang| pool.submit_gang_by(gang, *place, wait, |word| gangs.submit(word, 0));
        submit_gang(pool, dim, call, submit)
    }

    fn submit_one<F, T>(&mut self, call: F, may_wait: bool) -> Result<Ticket<T>, Refused<F>>
    where
        F: FnOnce() -> T + Send + 'static,
        T: Send + 'static,
    {
        let (pool, producer) = self.parts();
        let packet = Packet::new(1, None);
        let work = One { call, promise: Promise::new(packet.clone()) };
        match Job::pass_awaited(work, |job| pool.submit_by_client(producer, job, may_wait)) {
            Ok(job) => Ok(Ticket { packet, pool: pool.number, job: Some(job) }),
            Err((reason, One { call, .. })) => Err(Refused { reason, job: call }),
        }
    }
}

impl Drop for Client {
    fn drop(&mut self) {
        lock(&self.pool.producers).extend(self.producer.take());
    }
}

impl fmt::Debug for Client {
    fn fmt(&self, f: &mut fmt::Formatter<'_>) -> fmt::Result {
        f.debug_struct("Client").finish_non_exhaustive()
    }
}
