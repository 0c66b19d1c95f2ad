//! A scheduler of shell commands with one event loop: `event_loop DIM` reads lines from a pipe, for a
//! machine of `2^DIM` processors. A job is a number of processors, an estimate in seconds (0: not
//! known) and a command, as in `4 60 ./simulate --case 7`. A command finds its processors in
//! `CUBEJOBS_PROCESSORS`, as `0-3`. A line `cancel NUMBER` takes a job back that waits. It ends when
//! the pipe has ended and no job is left. `examples/event_loop.c` is one in C, which Ctrl-C stops.

use cubejobs::plan::{Options, Planner, Request, Start, Ticket};
use std::error::Error;
use std::io::{stdin, BufRead};
use std::process::{Command, Stdio};
use std::sync::mpsc::{channel, Sender};
use std::thread;
use std::time::Instant;

/// How many jobs may wait and run at once.
const JOBS: u32 = 10_000;

/// What happens.
enum Event {
    Line(String),
    NoMoreLines,
    /// The command of a job has ended, or was not started. The text says how.
    Ended(Ticket, String),
}

/// A job: its number, from 1 on, and its command.
struct Job {
    number: u64,
    command: String,
}

/// The state of the loop. One thread has it, so nothing is locked.
struct State {
    planner: Planner<Job>,
    events: Sender<Event>,
    last: u64,
}

impl State {
    /// Obeys a line. Returns what is wrong with it.
    fn obey(&mut self, line: &str) -> Result<(), Box<dyn Error>> {
        if let Some(number) = line.strip_prefix("cancel ") {
            let number = number.parse()?;
            let (ticket, ..) = self.planner.jobs().find(|it| it.1.number == number).ok_or("no such job")?;
            self.planner.cancel(ticket)?;
            println!("{number} is cancelled");
            return Ok(());
        }
        let words: Vec<&str> = line.splitn(3, ' ').collect();
        let [processors, seconds, command] = words[..] else { return Err("there is no command".into()) };
        let estimate = seconds.parse::<u64>()?.checked_mul(1000).ok_or("the estimate is too long")?;
        let job = Job { number: self.last + 1, command: command.to_string() };
        self.planner.submit(Request::new(processors.parse()?).estimate(estimate), job)?;
        self.last += 1;
        Ok(())
    }

    /// Starts the command of a job. A thread waits for its end.
    fn start(&self, start: Start) {
        let job = self.planner.job(start.ticket).expect("a job that starts is there");
        let processors = format!("{}-{}", start.base, start.range().end - 1);
        println!("{} starts on {processors}", job.number);
        let mut shell = Command::new("sh");
        shell.args(["-c", &job.command]).env("CUBEJOBS_PROCESSORS", processors).stdin(Stdio::null());
        let events = self.events.clone();
        thread::spawn(move || {
            let said = match shell.status().map(|it| it.code()) {
                Ok(Some(code)) => format!("ends with {code}"),
                Ok(None) => "was ended by a signal".to_string(),
                Err(error) => format!("was not started: {error}"),
            };
            let _ = events.send(Event::Ended(start.ticket, said));
        });
    }
}

fn read_lines(events: &Sender<Event>) {
    for line in stdin().lock().lines().map_while(Result::ok) {
        let _ = events.send(Event::Line(line));
    }
    let _ = events.send(Event::NoMoreLines);
}

fn main() -> Result<(), Box<dyn Error>> {
    let dim = std::env::args().nth(1).ok_or("usage: event_loop DIM")?.parse()?;
    let (events, happening) = channel();
    let mut state = State { planner: Planner::new(Options::new(dim, JOBS))?, events, last: 0 };
    let (begun, lines) = (Instant::now(), state.events.clone());
    thread::spawn(move || read_lines(&lines));
    let mut has_lines = true;
    while has_lines || state.planner.jobs().next().is_some() {
        match happening.recv()? {
            Event::Line(line) => {
                state.obey(&line).unwrap_or_else(|error| eprintln!("'{line}': {error}"));
            }
            Event::NoMoreLines => has_lines = false,
            Event::Ended(ticket, said) => println!("{} {said}", state.planner.finish(ticket)?.number),
        }
        // Each event is followed by all jobs that may start at its time.
        while let Some(start) = state.planner.next(begun.elapsed().as_millis() as u64)? {
            state.start(start);
        }
    }
    Ok(())
}
