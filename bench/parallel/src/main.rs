//! The same job as `cubejobs run`, as a user of rayon would write it: all-reduce and scan by
//! addition. One thread reads the jobs, and all make rows in parallel while one writes.
//!
//! It reads jobs as CSV (without quotes) from standard input, and writes their replies sorted by
//! lane, then by their number in the lane. Its argument is the dimension of the machine.

#[path = "../../plain_number.rs"]
mod plain_number;

use plain_number::number;
use rayon::prelude::*;
use std::env;
use std::fmt::Write as _;
use std::io::{self, BufRead, Write};
use std::process::ExitCode;

// The jobs whose rows are in memory at once, and those of one text.
const MANY: usize = 65_536;
const FEW: usize = 2_048;

struct Job {
    lane: u32,
    seq: u64,
    is_scan: bool,
    items: Vec<u64>,
}

fn job(line: &str, machine_dim: u32, next_seq: &mut [u64; 16]) -> Result<Job, &'static str> {
    let mut fields = line.split(',');
    let mut field = || fields.next().ok_or("Fields");
    let lane = number(field()?)? as u32;
    let is_scan = match field()? {
        "allreduce" => false,
        "scan" => true,
        _ => return Err("Word"),
    };
    if field()? != "add" || field()? != "0" {
        return Err("Word");
    }
    let items: Vec<u64> = field()?.split(' ').map(number).collect::<Result<_, _>>()?;
    if items.len() > 1 << machine_dim {
        return Err("Job TooLarge");
    }
    let next = next_seq.get_mut(lane as usize).ok_or("Number")?;
    let seq = *next;
    *next += 1;
    Ok(Job { lane, seq, is_scan, items })
}

fn read_jobs(machine_dim: u32) -> Result<Vec<Job>, (usize, &'static str)> {
    let mut input = io::stdin().lock();
    let (mut line, mut jobs, mut next_seq) = (String::new(), Vec::new(), [0; 16]);
    for row in 0.. {
        line.clear();
        if input.read_line(&mut line).map_err(|_| (0, "Read"))? == 0 {
            break;
        }
        let text = line.trim_end_matches(['\n', '\r']);
        if row == 0 {
            if text != "lane,kind,op,root,items" {
                return Err((0, "Word"));
            }
        } else {
            jobs.push(job(text, machine_dim, &mut next_seq).map_err(|name| (row, name))?);
        }
    }
    Ok(jobs)
}

// Runs a job, and appends its row.
fn push_row(text: &mut String, job: &Job) {
    let kind = if job.is_scan { "scan" } else { "allreduce" };
    let dim = job.items.len().next_power_of_two().ilog2();
    let total = job.items.iter().fold(0u64, |sum, item| sum.wrapping_add(*item));
    write!(text, "{},{},{kind},{dim},", job.lane, job.seq).unwrap();
    let mut sum = 0u64;
    for (place, item) in job.items.iter().enumerate() {
        sum = sum.wrapping_add(*item);
        let gap = if place == 0 { "" } else { " " };
        write!(text, "{gap}{}", if job.is_scan { sum } else { total }).unwrap();
    }
    writeln!(text, ",{dim},{}", u64::from(dim) << dim).unwrap();
}

fn write_replies(jobs: &[Job]) -> io::Result<()> {
    let mut output = io::stdout().lock();
    output.write_all(b"lane,seq,kind,dim,result,rounds,messages\n")?;
    for many in jobs.chunks(MANY) {
        let texts: Vec<String> = many
            .par_chunks(FEW)
            .map(|few| {
                let mut text = String::with_capacity(few.len() * 48);
                few.iter().for_each(|job| push_row(&mut text, job));
                text
            })
            .collect();
        for text in texts {
            output.write_all(text.as_bytes())?;
        }
    }
    output.flush()
}

fn main() -> ExitCode {
    let dim = env::args().nth(1).and_then(|word| word.parse().ok()).unwrap_or(10);
    let mut jobs = match read_jobs(dim) {
        Ok(jobs) => jobs,
        Err((row, name)) => {
            eprintln!("refused: record {row}: {name}");
            return ExitCode::from(1);
        }
    };
    jobs.par_sort_unstable_by_key(|job| (job.lane, job.seq));
    match write_replies(&jobs) {
        Ok(()) => ExitCode::SUCCESS,
        Err(_) => ExitCode::from(3),
    }
}
