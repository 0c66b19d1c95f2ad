//! A limit of time for tests whose threads sleep: a lost wake ends the program, and does not hang it.

use std::io::{self, Write};
use std::process::abort;
use std::sync::mpsc::{channel, RecvTimeoutError, Sender};
use std::thread;
use std::time::Duration;

/// A test that ends the program if it takes too long. A drop says that the test is over.
pub struct Limited(#[allow(dead_code)] Sender<()>);

/// Begins a test, which has this many seconds.
pub fn limited(seconds: u64) -> Limited {
    let name = thread::current().name().unwrap_or("?").to_string();
    let (over, ends) = channel::<()>();
    thread::spawn(move || {
        if ends.recv_timeout(Duration::from_secs(seconds)) == Err(RecvTimeoutError::Timeout) {
            // The output of `eprintln` would be kept for the end of the test.
            let _ = writeln!(io::stderr(), "{name} has not ended within {seconds} s");
            abort();
        }
    });
    Limited(over)
}
