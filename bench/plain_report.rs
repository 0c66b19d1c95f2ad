//! The same job as `cubejobs report`, as a plain Rust program without crates: all-reduce and scan
//! by addition.
//!
//! It reads jobs as CSV (without quotes) from standard input, runs them, and writes totals by lane
//! and by dimension. Build it with `rustc -O`.

mod plain_jobs;
mod plain_machine;
mod plain_number;

use plain_jobs::{Job, answer, least_dim, read_jobs};
use plain_machine::Machine;
use std::env;
use std::fmt::{self, Display};
use std::hint::black_box;
use std::io::{self, BufWriter, Write};
use std::process::ExitCode;

#[derive(Clone, Copy, Default)]
struct Total {
    count: u64,
    processors: u64,
    idle: u64,
}

impl Total {
    fn add(&mut self, items: usize) {
        let processors = 1 << least_dim(items);
        self.count += 1;
        self.processors += processors;
        self.idle += processors - items as u64;
    }
}

impl Display for Total {
    fn fmt(&self, f: &mut fmt::Formatter) -> fmt::Result {
        write!(f, "{},{},{}", self.count, self.processors, self.idle)
    }
}

struct Totals {
    lanes: Vec<Total>,
    dims: Vec<Total>,
    all: Total,
}

// Runs the jobs, and returns their totals.
fn totals(jobs: Vec<Job>, dim: u32) -> Option<Totals> {
    let mut machine = Machine::new(dim);
    let lanes = jobs.iter().map(|job| job.lane as usize + 1).max().unwrap_or(1);
    let mut totals = Totals {
        lanes: vec![Total::default(); lanes],
        dims: vec![Total::default(); dim as usize + 1],
        all: Total::default(),
    };
    for job in jobs {
        let items = job.items.len();
        totals.lanes[job.lane as usize].add(items);
        totals.dims[least_dim(items) as usize].add(items);
        totals.all.add(items);
        black_box(answer(job.kind, job.items, &mut machine)?);
    }
    Some(totals)
}

fn write_totals(totals: &Totals, dim: u32) -> io::Result<()> {
    let mut output = BufWriter::new(io::stdout().lock());
    writeln!(output, "group,key,count,processors,idle")?;
    for (lane, total) in totals.lanes.iter().enumerate() {
        writeln!(output, "lane,{lane},{total}")?;
    }
    for (of, total) in totals.dims.iter().enumerate() {
        writeln!(output, "dim,{of},{total}")?;
    }
    for of in 0..=dim {
        writeln!(output, "free,{of},{},{},0", 1u64 << (dim - of), 1u64 << dim)?;
    }
    writeln!(output, "total,-,{}", totals.all)?;
    output.flush()
}

fn main() -> ExitCode {
    let dim: u32 = env::args()
        .nth(1)
        .and_then(|word| word.parse().ok())
        .unwrap_or(10);
    let jobs = match read_jobs(dim) {
        Ok(jobs) => jobs,
        Err((row, name)) => {
            eprintln!("refused: record {row}: {name}");
            return ExitCode::from(1);
        }
    };
    match totals(jobs, dim).map(|totals| write_totals(&totals, dim)) {
        Some(Ok(())) => ExitCode::SUCCESS,
        _ => ExitCode::from(3),
    }
}
