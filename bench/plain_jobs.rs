//! The jobs of the plain programs: how they are read, and how one is run.

use crate::plain_machine::Machine;
use crate::plain_number::number;
use std::io::{self, BufRead};

#[derive(Clone, Copy)]
pub enum Kind {
    AllReduce,
    Scan,
}

pub struct Job {
    pub lane: u32,
    // Totals do not need it.
    #[allow(dead_code)]
    pub seq: u64,
    pub kind: Kind,
    pub items: Vec<u64>,
}

/// The smallest machine that holds this many items, as a dimension.
pub fn least_dim(items: usize) -> u32 {
    items.next_power_of_two().ilog2()
}

fn job(line: &str, machine_dim: u32, next_seq: &mut [u64; 16]) -> Result<Job, &'static str> {
    let fields: Vec<&str> = line.split(',').collect();
    let [lane, kind, op, root, items] = fields[..] else {
        return Err("Fields");
    };
    let lane = number(lane)?;
    let Some(seq) = next_seq.get_mut(lane as usize) else {
        return Err("Number");
    };
    let kind = match kind {
        "allreduce" => Kind::AllReduce,
        "scan" => Kind::Scan,
        _ => return Err("Word"),
    };
    if op != "add" {
        return Err("Word");
    }
    let root = number(root)?;
    let items = items
        .split(' ')
        .map(number)
        .collect::<Result<Vec<_>, _>>()?;
    if items.len() > 1 << machine_dim {
        return Err("Job TooLarge");
    }
    if root != 0 {
        return Err("Job BadRoot");
    }
    let job = Job {
        lane: lane as u32,
        seq: *seq,
        kind,
        items,
    };
    *seq += 1;
    Ok(job)
}

/// Runs a job, and returns its result. None if the machine has no room.
pub fn answer(kind: Kind, items: Vec<u64>, machine: &mut Machine) -> Option<Vec<u64>> {
    let dim = least_dim(items.len());
    let base = machine.take(dim)?;
    let mut result = items;
    let mut sum = 0u64;
    for item in &mut result {
        sum = sum.wrapping_add(*item);
        *item = sum;
    }
    if let Kind::AllReduce = kind {
        result.fill(sum);
    }
    machine.release(base, dim);
    Some(result)
}

/// Reads all jobs of standard input. The error is the number of the first bad record.
pub fn read_jobs(machine_dim: u32) -> Result<Vec<Job>, (usize, &'static str)> {
    let mut input = io::stdin().lock();
    let mut line = String::new();
    let mut jobs = Vec::new();
    let mut next_seq = [0; 16];
    for row in 0.. {
        line.clear();
        let read = input.read_line(&mut line).map_err(|_| (0, "Read"))?;
        if read == 0 {
            break;
        }
        let text = line.trim_end_matches(['\n', '\r']);
        if row == 0 {
            if text != "lane,kind,op,root,items" {
                return Err((0, "Word"));
            }
        } else {
            jobs.push(job(text, machine_dim, &mut next_seq).map_err(|name| (row, name))?);
        }
    }
    Ok(jobs)
}
