//! What the tests share.
#![allow(dead_code)] // each file of tests uses a part

use cubejobs_pool::{Builder, Pool};
use std::env;
use std::fs;
use std::io::{self, Write};
use std::panic::{self, resume_unwind};
use std::process::abort;
use std::sync::atomic::{AtomicUsize, Ordering::SeqCst};
use std::sync::mpsc::{channel, RecvTimeoutError, Sender};
use std::sync::{Arc, Condvar, Mutex, MutexGuard, PoisonError};
use std::thread;
use std::time::{Duration, Instant};

/// The payload of panics that a test plans. No hook reports them.
#[derive(Clone, Copy, Debug, PartialEq, Eq)]
pub struct Planned;

pub fn planned() -> ! {
    resume_unwind(Box::new(Planned))
}

/// A test that runs alone, and ends the process if it takes too long.
pub struct Limited {
    done: Sender<()>,
    _alone: MutexGuard<'static, ()>,
}

/// Begins a test, which has this many seconds, or those of the variable `POOL_TEST_SECONDS`. No
/// other test of the file runs meanwhile.
pub fn limited(seconds: u64) -> Limited {
    static ALONE: Mutex<()> = Mutex::new(());
    let alone = ALONE.lock().unwrap_or_else(PoisonError::into_inner);
    let seconds = env::var("POOL_TEST_SECONDS").ok().and_then(|it| it.parse().ok()).unwrap_or(seconds);
    let name = thread::current().name().unwrap_or("?").to_string();
    let (done, over) = channel();
    thread::spawn(move || {
        if over.recv_timeout(Duration::from_secs(seconds)) == Err(RecvTimeoutError::Timeout) {
            // The output of `eprintln` would be kept for the end of the test.
            let _ = writeln!(io::stderr(), "{name} has not ended within {seconds} s");
            abort();
        }
    });
    Limited { done, _alone: alone }
}

impl Drop for Limited {
    fn drop(&mut self) {
        let _ = self.done.send(());
    }
}

pub fn pool(dim: u32) -> Pool {
    Pool::builder().workers_log2(dim).build().unwrap()
}

/// Returns how many threads of pools there are.
pub fn threads() -> usize {
    let is_of_pool = |task: &fs::DirEntry| {
        fs::read_to_string(task.path().join("comm")).is_ok_and(|name| name.starts_with("gang-"))
    };
    fs::read_dir("/proc/self/task").unwrap().filter_map(Result::ok).filter(is_of_pool).count()
}

/// Waits until the threads of pools are this many.
pub fn wait_for_threads(count: usize) {
    let start = Instant::now();
    loop {
        // A thread that starts has its name a moment later.
        let now = threads();
        if now == count {
            return;
        }
        assert!(start.elapsed() < Duration::from_secs(10), "{now} threads of pools, and not {count}");
        thread::sleep(Duration::from_millis(2));
    }
}

/// Returns the text of a panic's payload.
pub fn text(payload: Box<dyn std::any::Any + Send>) -> String {
    match payload.downcast::<String>() {
        Ok(text) => *text,
        Err(payload) => payload.downcast_ref::<&str>().unwrap_or(&"no text").to_string(),
    }
}

/// Keeps the reports of panics that a test expects from the output. The text begins with one of
/// these.
pub fn expect_panics(texts: &'static [&'static str]) {
    let before = panic::take_hook();
    panic::set_hook(Box::new(move |info| {
        let payload = info.payload();
        let text = payload
            .downcast_ref::<String>()
            .map(String::as_str)
            .or_else(|| payload.downcast_ref::<&str>().copied())
            .unwrap_or("");
        if !texts.iter().any(|it| text.starts_with(it)) {
            before(info);
        }
    }));
}

/// The numbers of xorshift.
pub struct Numbers(u64);

impl Numbers {
    pub fn new(seed: u64) -> Self {
        Numbers(seed.wrapping_mul(0x9e37_79b9_7f4a_7c15) | 1)
    }

    /// Returns a number below `bound`.
    pub fn below(&mut self, bound: u64) -> u64 {
        self.0 ^= self.0 << 13;
        self.0 ^= self.0 >> 7;
        self.0 ^= self.0 << 17;
        self.0 % bound
    }
}

/// A value that is counted while it lives.
pub struct Counted(Arc<AtomicUsize>);

impl Counted {
    pub fn new(count: &Arc<AtomicUsize>) -> Self {
        count.fetch_add(1, SeqCst);
        Counted(count.clone())
    }
}

impl Drop for Counted {
    fn drop(&mut self) {
        self.0.fetch_sub(1, SeqCst);
    }
}

/// Returns the builder of a pool of this number of workers, a power of two.
pub fn workers(count: usize) -> Builder {
    Pool::builder().workers_log2(count.ilog2())
}

/// A gate that lets one thread pass for each permit. A job that waits there waits by other means
/// than the pool's calls.
#[derive(Clone, Default)]
pub struct Gate(Arc<(Mutex<usize>, Condvar)>);

impl Gate {
    /// Adds this number of permits.
    pub fn open(&self, permits: usize) {
        *self.permits() += permits;
        self.0 .1.notify_all();
    }

    /// Takes one permit, once there is one.
    pub fn pass(&self) {
        let none = |permits: &mut usize| *permits == 0;
        let mut permits = self.0 .1.wait_while(self.permits(), none).unwrap_or_else(PoisonError::into_inner);
        *permits -= 1;
    }

    fn permits(&self) -> MutexGuard<'_, usize> {
        self.0 .0.lock().unwrap_or_else(PoisonError::into_inner)
    }
}

/// Waits until `holds` is true, for at most ten seconds. Returns whether it is.
pub fn within_ten_seconds(holds: impl Fn() -> bool) -> bool {
    let start = Instant::now();
    while !holds() && start.elapsed() < Duration::from_secs(10) {
        thread::sleep(Duration::from_millis(1));
    }
    holds()
}
