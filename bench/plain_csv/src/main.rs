//! The same job as `cubejobs run`, as a user of the csv crate would write it, with one thread:
//! all-reduce and scan by addition.
//!
//! It reads jobs as CSV from standard input, and writes their replies sorted by lane, then by their
//! number in the lane. Its argument is the dimension of the machine.

#[path = "../../plain_machine.rs"]
mod plain_machine;
#[path = "../../plain_number.rs"]
mod plain_number;

use csv::StringRecord;
use plain_machine::Machine;
use plain_number::number;
use std::env;
use std::error::Error;
use std::fmt::Write as _;
use std::io;
use std::process::ExitCode;

const HEADER: [&str; 5] = ["lane", "kind", "op", "root", "items"];

struct Job {
    lane: u32,
    seq: u64,
    is_scan: bool,
    items: Vec<u64>,
}

fn job(record: &StringRecord, machine_dim: u32, next_seq: &mut [u64; 16]) -> Result<Job, &'static str> {
    if record.len() != HEADER.len() {
        return Err("Fields");
    }
    let lane = number(&record[0])? as u32;
    let is_scan = match &record[1] {
        "allreduce" => false,
        "scan" => true,
        _ => return Err("Word"),
    };
    if &record[2] != "add" || &record[3] != "0" {
        return Err("Word");
    }
    let items: Vec<u64> = record[4].split(' ').map(number).collect::<Result<_, _>>()?;
    if items.len() > 1 << machine_dim {
        return Err("Job TooLarge");
    }
    let next = next_seq.get_mut(lane as usize).ok_or("Number")?;
    let seq = *next;
    *next += 1;
    Ok(Job { lane, seq, is_scan, items })
}

fn read_jobs(machine_dim: u32) -> Result<Vec<Job>, Box<dyn Error>> {
    let mut reader = csv::ReaderBuilder::new().flexible(true).from_reader(io::stdin().lock());
    if reader.headers()? != &HEADER[..] {
        return Err("record 0: Word".into());
    }
    let (mut record, mut jobs, mut next_seq) = (StringRecord::new(), Vec::new(), [0; 16]);
    while reader.read_record(&mut record)? {
        let row = jobs.len() + 1;
        jobs.push(job(&record, machine_dim, &mut next_seq).map_err(|name| format!("record {row}: {name}"))?);
    }
    Ok(jobs)
}

// Runs a job on a block, and writes the numbers of its result.
fn answer(job: &Job, machine: &mut Machine, text: &mut String) -> Result<u32, Box<dyn Error>> {
    let dim = job.items.len().next_power_of_two().ilog2();
    let base = machine.take(dim).ok_or("the machine has no room")?;
    let total = job.items.iter().fold(0u64, |sum, item| sum.wrapping_add(*item));
    let mut sum = 0u64;
    for (place, item) in job.items.iter().enumerate() {
        sum = sum.wrapping_add(*item);
        let gap = if place == 0 { "" } else { " " };
        write!(text, "{gap}{}", if job.is_scan { sum } else { total })?;
    }
    machine.release(base, dim);
    Ok(dim)
}

fn run(machine_dim: u32) -> Result<(), Box<dyn Error>> {
    let mut jobs = read_jobs(machine_dim)?;
    jobs.sort_by_key(|job| (job.lane, job.seq));
    let mut machine = Machine::new(machine_dim);
    let mut writer = csv::Writer::from_writer(io::stdout().lock());
    writer.write_record(["lane", "seq", "kind", "dim", "result", "rounds", "messages"])?;
    let mut result = String::new();
    for job in &jobs {
        result.clear();
        let dim = answer(job, &mut machine, &mut result)?;
        let kind = if job.is_scan { "scan" } else { "allreduce" };
        let (lane, seq, rounds) = (job.lane.to_string(), job.seq.to_string(), dim.to_string());
        let messages = (u64::from(dim) << dim).to_string();
        writer.write_record([&lane, &seq, kind, &rounds, &result, &rounds, &messages])?;
    }
    Ok(writer.flush()?)
}

fn main() -> ExitCode {
    let machine_dim = env::args().nth(1).and_then(|word| word.parse().ok()).unwrap_or(10);
    match run(machine_dim) {
        Ok(()) => ExitCode::SUCCESS,
        Err(reason) => {
            eprintln!("refused: {reason}");
            ExitCode::from(1)
        }
    }
}
