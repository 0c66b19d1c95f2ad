//! The same job as `cubejobs place`, as a plain Rust program without crates.
//!
//! It reads commands as CSV (without quotes) from standard input, and writes what became of each.
//! Build it with `rustc -O`.

mod plain_machine;
mod plain_number;

use plain_machine::Machine;
use plain_number::number;
use std::collections::HashMap;
use std::env;
use std::io::{self, BufRead, BufWriter, Write};
use std::process::ExitCode;

const STATIONS: usize = 48;

enum Command {
    Take { name: String, dim: u32 },
    Free { name: String },
}

fn name(text: &str) -> Result<String, &'static str> {
    let good = |b: u8| b.is_ascii_lowercase() || b.is_ascii_digit();
    if text.is_empty() || text.len() > 16 || !text.bytes().all(good) {
        return Err("Word");
    }
    Ok(text.to_string())
}

fn command(n: u32, line: &str) -> Result<Command, &'static str> {
    let fields: Vec<&str> = line.split(',').collect();
    let [verb, text, dim] = fields[..] else {
        return Err("Fields");
    };
    let takes = match verb {
        "take" => true,
        "free" => false,
        _ => return Err("Word"),
    };
    let name = name(text)?;
    if takes {
        let dim = number(dim)?;
        if dim > u64::from(n) {
            return Err("Number");
        }
        return Ok(Command::Take { name, dim: dim as u32 });
    }
    if dim != "-" {
        return Err("Word");
    }
    Ok(Command::Free { name })
}

fn read(n: u32) -> Result<Vec<Command>, String> {
    let mut commands = Vec::new();
    for (record, line) in io::stdin().lock().lines().enumerate() {
        let line = line.map_err(|error| error.to_string())?;
        if record == 0 {
            if line != "command,name,dim" {
                return Err("record 0: Word".to_string());
            }
            continue;
        }
        let command = command(n, &line).map_err(|what| format!("record {record}: {what}"))?;
        commands.push(command);
    }
    Ok(commands)
}

fn answer(n: u32, commands: Vec<Command>) -> io::Result<()> {
    let mut out = BufWriter::new(io::stdout().lock());
    let mut machine = Machine::new(n);
    let mut held: HashMap<String, (usize, u32)> = HashMap::new();
    writeln!(out, "command,name,dim,base,outcome")?;
    for command in commands {
        match command {
            Command::Take { name, dim } => {
                if held.contains_key(&name) {
                    writeln!(out, "take,{name},{dim},-,held")?;
                } else if held.len() == STATIONS {
                    writeln!(out, "take,{name},{dim},-,nostation")?;
                } else if let Some(base) = machine.take(dim) {
                    writeln!(out, "take,{name},{dim},{base},given")?;
                    held.insert(name, (base, dim));
                } else {
                    writeln!(out, "take,{name},{dim},-,nosubcube")?;
                }
            }
            Command::Free { name } => match held.remove(&name) {
                Some((base, dim)) => {
                    machine.release(base, dim);
                    writeln!(out, "free,{name},{dim},{base},freed")?;
                }
                None => writeln!(out, "free,{name},-,-,nothingheld")?,
            },
        }
    }
    out.flush()
}

fn main() -> ExitCode {
    let n = env::args().nth(1).and_then(|word| word.parse().ok()).unwrap_or(10);
    match read(n) {
        Ok(commands) => match answer(n, commands) {
            Ok(()) => ExitCode::SUCCESS,
            Err(_) => ExitCode::from(3),
        },
        Err(fault) => {
            eprintln!("refused: {fault}");
            ExitCode::from(1)
        }
    }
}
