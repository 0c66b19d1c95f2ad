//! Tasks that must not sleep run the jobs of a scheduler: `async` workers over `try_next` and
//! `on_ready`. The executor below has one thread and polls all tasks; take your own.

use cubejobs::sched::{Ended, Options, Request, Scheduler, Waiting, Worker};
use std::error::Error;
use std::future::Future;
use std::mem::take;
use std::pin::Pin;
use std::sync::atomic::{AtomicU64, Ordering::SeqCst};
use std::sync::{Arc, Mutex};
use std::task::{Context, Poll, Wake, Waker};
use std::thread::{self, Thread};

/// How often the scheduler has said that a job may start, and the tasks that wait for the next time.
#[derive(Default)]
struct Changes {
    count: AtomicU64,
    wakers: Mutex<Vec<Waker>>,
}

impl Changes {
    /// Notes a change, and wakes the tasks. It counts first, so a task misses none.
    fn note(&self) {
        self.count.fetch_add(1, SeqCst);
        let wakers = take(&mut *self.wakers.lock().unwrap());
        wakers.into_iter().for_each(Waker::wake);
    }
}

/// Waits for a change that comes after `seen` was read.
struct After<'a> {
    changes: &'a Changes,
    seen: u64,
}

impl Future for After<'_> {
    type Output = ();

    fn poll(self: Pin<&mut Self>, context: &mut Context<'_>) -> Poll<()> {
        let mut wakers = self.changes.wakers.lock().unwrap();
        if self.changes.count.load(SeqCst) != self.seen {
            return Poll::Ready(());
        }
        wakers.push(context.waker().clone());
        Poll::Pending
    }
}

/// Runs jobs until the scheduler is closed. Returns the sum of their numbers.
async fn work(mut worker: Worker<'_, u64>, changes: &Changes) -> u64 {
    let mut sum = 0;
    loop {
        let seen = changes.count.load(SeqCst); // before the look
        match worker.try_next() {
            Ok(job) => sum += *job, // the job ends here
            Err(Ended::NoJob) => After { changes, seen }.await,
            Err(_) => return sum,
        }
    }
}

/// Wakes the thread of the executor.
struct Unpark(Thread);

impl Wake for Unpark {
    fn wake(self: Arc<Self>) {
        self.0.unpark();
    }
}

/// Polls all tasks until they have ended. Returns what they return.
fn run_all<T>(mut tasks: Vec<Pin<Box<dyn Future<Output = T> + '_>>>) -> Vec<T> {
    let waker = Waker::from(Arc::new(Unpark(thread::current())));
    let (mut context, mut found) = (Context::from_waker(&waker), Vec::new());
    loop {
        tasks.retain_mut(|task| match task.as_mut().poll(&mut context) {
            Poll::Ready(value) => {
                found.push(value);
                false
            }
            Poll::Pending => true,
        });
        if tasks.is_empty() {
            return found;
        }
        thread::park(); // it returns at once if a task was woken since it was polled
    }
}

fn main() -> Result<(), Box<dyn Error>> {
    let changes = Arc::new(Changes::default());
    let mut scheduler = Scheduler::new(Options::new(4, 64, 8))?;
    let noted = changes.clone();
    scheduler.on_ready(move || noted.note()); // before threads share the scheduler
    let scheduler = &scheduler;
    let sums = thread::scope(|scope| {
        scope.spawn(move || {
            for number in 0..1000 {
                let request = Request::new(1 + (number % 16) as u32);
                scheduler.submit(number, request).expect("the scheduler is open");
            }
            scheduler.close(Waiting::Run);
        });
        let workers = (0..8).map(|_| scheduler.worker().expect("there are eight"));
        let tasks = workers.map(|it| Box::pin(work(it, &changes)) as Pin<Box<dyn Future<Output = u64>>>);
        run_all(tasks.collect())
    });
    println!("{} tasks ran jobs with a sum of {}", sums.len(), sums.iter().sum::<u64>());
    Ok(())
}
