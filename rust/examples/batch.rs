//! A batch scheduler: `batch FILE [--stop-after N]`. Each line of the file is a job, `PROCESSORS
//! MILLISECONDS`: it sleeps that long on so much of 16 processors. Two threads submit the jobs, and
//! four run them. A line `q` on standard input stops it early, and so does the start of `N` jobs.
//! Then the jobs that run end, and those that have not started are listed.

use cubejobs::sched::{Options, Request, Scheduler, Waiting};
use std::error::Error;
use std::io::{self, IsTerminal};
use std::sync::atomic::{AtomicBool, AtomicUsize, Ordering::SeqCst};
use std::time::Duration;
use std::{env, fs, thread};

/// The dimension of the machine.
const DIM: u32 = 4;
const SUBMITTERS: usize = 2;
const WORKERS: usize = 4;
/// How many jobs may wait and run at once.
const JOBS: u32 = 32;

/// A job, with the number of its line.
struct Task {
    line: usize,
    processors: u32,
    time: Duration,
}

static STOP: AtomicBool = AtomicBool::new(false);
static STARTED: AtomicUsize = AtomicUsize::new(0);
static ENDED: AtomicUsize = AtomicUsize::new(0);

/// Returns the jobs of a text, or what is wrong with a line.
fn parse(text: &str) -> Result<Vec<Task>, String> {
    let mut tasks = Vec::new();
    for (number, line) in text.lines().enumerate() {
        let line_of = |what: &str| format!("line {}: {what}", number + 1);
        let words: Vec<&str> = line.split_whitespace().collect();
        let [processors, time] = words[..] else {
            return Err(line_of("a job is PROCESSORS MILLISECONDS"));
        };
        let processors = processors.parse().ok().filter(|it| (1..=1 << DIM).contains(it));
        let processors = processors.ok_or_else(|| line_of("the processors are a number from 1 to 16"))?;
        let time = time.parse().map_err(|_| line_of("the time is a number of milliseconds"))?;
        tasks.push(Task { line: number + 1, processors, time: Duration::from_millis(time) });
    }
    Ok(tasks)
}

/// Submits jobs until the scheduler is closed. Returns those that were not accepted.
fn submit(scheduler: &Scheduler<Task>, tasks: Vec<Task>) -> Vec<Task> {
    let mut left = Vec::new();
    for task in tasks {
        let request = Request::new(task.processors).estimate(task.time);
        // The call sleeps until there is a place. The estimate helps to start wide jobs in time.
        if let Err(refused) = scheduler.submit(task, request) {
            left.push(refused.job);
        }
    }
    left
}

/// Runs jobs until there are no more, or until the stop. Returns a job that it has not run.
fn work(scheduler: &Scheduler<Task>, last: usize) -> Option<Task> {
    let mut worker = scheduler.worker().expect("there are as many workers as threads");
    // The call sleeps until a job starts, on processors that no other job has.
    while let Ok(job) = worker.next() {
        if STOP.load(SeqCst) {
            return Some(job.into_job());
        }
        if STARTED.fetch_add(1, SeqCst) + 1 == last {
            STOP.store(true, SeqCst);
        }
        thread::sleep(job.time);
        ENDED.fetch_add(1, SeqCst);
    } // here the job is dropped, which ends it
    None
}

/// Shows on a terminal how many of all jobs have started and ended.
fn show(all: usize, end: &str) {
    if io::stderr().is_terminal() {
        let (started, ended) = (STARTED.load(SeqCst), ENDED.load(SeqCst));
        eprint!("\r{started} of {all} jobs have started, {ended} have ended{end}");
    }
}

/// Runs all tasks, or those up to the stop. Returns those that have not run.
fn run(tasks: Vec<Task>, last: usize) -> Result<Vec<Task>, Box<dyn Error>> {
    let scheduler = &Scheduler::new(Options::new(DIM, JOBS, WORKERS as u32))?;
    let all = tasks.len();
    let mut parts: [Vec<Task>; SUBMITTERS] = Default::default();
    for task in tasks {
        parts[task.line % SUBMITTERS].push(task);
    }
    let mut left = thread::scope(|scope| {
        let submitters = parts.map(|part| scope.spawn(move || submit(scheduler, part)));
        let workers = [(); WORKERS].map(|()| scope.spawn(move || work(scheduler, last)));
        while !workers.iter().all(|it| it.is_finished()) {
            if STOP.load(SeqCst) {
                // Jobs that wait do not start, and come back below.
                scheduler.close(Waiting::ComeBack);
            } else if submitters.iter().all(|it| it.is_finished()) {
                scheduler.close(Waiting::Run);
            }
            show(all, "");
            thread::sleep(Duration::from_millis(20));
        }
        show(all, "\n");
        // After a stop the workers may all have ended before the close. A submit may still sleep.
        scheduler.close(Waiting::ComeBack);
        let submitted = submitters.into_iter().flat_map(|it| it.join().expect("a submitter panicked"));
        let left: Vec<Task> = submitted.collect();
        left.into_iter()
            .chain(workers.into_iter().filter_map(|it| it.join().expect("a worker panicked")))
            .collect::<Vec<_>>()
    });
    left.extend(std::iter::from_fn(|| scheduler.rest()));
    left.sort_by_key(|task| task.line);
    Ok(left)
}

fn main() -> Result<(), Box<dyn Error>> {
    let words: Vec<String> = env::args().skip(1).collect();
    let words: Vec<&str> = words.iter().map(String::as_str).collect();
    let (file, last) = match words[..] {
        [file] => (file, usize::MAX),
        [file, "--stop-after", last] => (file, last.parse()?),
        _ => return Err("usage: batch FILE [--stop-after N]".into()),
    };
    let tasks = parse(&fs::read_to_string(file)?)?;
    STOP.store(last == 0, SeqCst);
    thread::spawn(|| {
        if io::stdin().lines().any(|line| line.is_ok_and(|it| it == "q")) {
            STOP.store(true, SeqCst);
        }
    });
    let left = run(tasks, last)?;
    for task in &left {
        println!("line {}: {} processors, {} ms", task.line, task.processors, task.time.as_millis());
    }
    println!("{} jobs have ended, and {} are left", ENDED.load(SeqCst), left.len());
    Ok(())
}
