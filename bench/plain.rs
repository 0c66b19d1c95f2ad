//! The same job as `cubejobs run`, as a plain Rust program without crates: all-reduce and scan by
//! addition.
//!
//! It reads jobs as CSV (without quotes) from standard input, and writes their replies sorted by
//! lane, then by their number in the lane. Build it with `rustc -O`.

mod plain_jobs;
mod plain_machine;
mod plain_number;

use plain_jobs::{Job, Kind, answer, least_dim, read_jobs};
use plain_machine::Machine;
use std::env;
use std::io::{self, BufWriter, Write};
use std::process::ExitCode;

struct Reply {
    lane: u32,
    seq: u64,
    kind: Kind,
    dim: u32,
    result: Vec<u64>,
    rounds: u32,
    messages: u64,
}

fn reply(job: Job, machine: &mut Machine) -> Option<Reply> {
    let dim = least_dim(job.items.len());
    Some(Reply {
        lane: job.lane,
        seq: job.seq,
        kind: job.kind,
        dim,
        rounds: dim,
        messages: u64::from(dim) << dim,
        result: answer(job.kind, job.items, machine)?,
    })
}

fn write_replies(replies: &[Reply]) -> io::Result<()> {
    let mut output = BufWriter::new(io::stdout().lock());
    writeln!(output, "lane,seq,kind,dim,result,rounds,messages")?;
    for reply in replies {
        let kind = match reply.kind {
            Kind::AllReduce => "allreduce",
            Kind::Scan => "scan",
        };
        write!(output, "{},{},{kind},{},", reply.lane, reply.seq, reply.dim)?;
        for (place, value) in reply.result.iter().enumerate() {
            let gap = if place == 0 { "" } else { " " };
            write!(output, "{gap}{value}")?;
        }
        writeln!(output, ",{},{}", reply.rounds, reply.messages)?;
    }
    output.flush()
}

fn main() -> ExitCode {
    let dim: u32 = env::args()
        .nth(1)
        .and_then(|word| word.parse().ok())
        .unwrap_or(10);
    let jobs = match read_jobs(dim) {
        Ok(jobs) => jobs,
        Err((row, name)) => {
            eprintln!("refused: record {row}: {name}");
            return ExitCode::from(1);
        }
    };
    let mut machine = Machine::new(dim);
    let mut replies: Vec<Reply> = jobs
        .into_iter()
        .filter_map(|job| reply(job, &mut machine))
        .collect();
    replies.sort_by_key(|reply| (reply.lane, reply.seq));
    match write_replies(&replies) {
        Ok(()) => ExitCode::SUCCESS,
        Err(_) => ExitCode::from(3),
    }
}
