//! The same job as `cubejobs replay`, as a plain Rust program without crates.
//!
//! It reads a schedule as CSV (without quotes) from standard input, and writes its events. Build it
//! with `rustc -O`.

mod plain_number;

use plain_number::number;
use std::env;
use std::fmt::Write as _;
use std::io::{self, BufRead, BufWriter, Write};
use std::process::ExitCode;

#[derive(Clone, Copy)]
enum Line {
    Take { station: u64, node: u64 },
    Release { station: u64 },
    Step { station: u64, times: u64 },
    Run { station: u64 },
    Retire { station: u64 },
}

#[derive(Clone, Copy)]
enum Phase {
    Idle,
    Looking { node: u64 },
    Looked { node: u64, word: u64 },
    Climbing { node: u64, at: u64 },
    Swept { node: u64, at: u64 },
    Holding { node: u64 },
    Leaving { node: u64 },
    Backing { node: u64 },
    Arriving { at: u64 },
    Unmarked { at: u64 },
    Marked { at: u64, word: u64, left: Option<bool>, right: Option<bool> },
    Retired,
}

struct Event {
    kind: &'static str,
    node: u64,
    word: u64,
    note: &'static str,
}

struct World {
    words: Vec<u64>,
    phases: Vec<Phase>,
}

fn used(word: u64) -> u64 {
    word & 7
}

/// The side of node `at` through which `node` lies.
fn side_towards(at: u64, node: u64) -> u64 {
    let mut child = node;
    while child / 2 != at {
        child /= 2;
    }
    if child % 2 == 0 { 2 } else { 4 }
}

impl World {
    fn risen(node: u64, at: u64) -> (Phase, &'static str) {
        if at == 1 {
            (Phase::Holding { node }, "held")
        } else {
            (Phase::Climbing { node, at: at / 2 }, "climb")
        }
    }

    fn freed(at: u64) -> (Phase, &'static str) {
        if at == 1 {
            (Phase::Idle, "done")
        } else {
            (Phase::Arriving { at: at / 2 }, "climb")
        }
    }

    fn step(&mut self, station: u64) -> Result<Event, &'static str> {
        let Some(&phase) = self.phases.get(station as usize) else {
            return Err("nostation");
        };
        let (kind, node, word, next, note) = match phase {
            Phase::Idle | Phase::Holding { .. } | Phase::Retired => return Err("resting"),
            Phase::Looking { node } => {
                let word = self.words[node as usize];
                if used(word) == 0 {
                    ("look", node, word, Phase::Looked { node, word }, "free")
                } else {
                    ("look", node, word, Phase::Idle, "inuse")
                }
            }
            Phase::Looked { node, word } => {
                if self.words[node as usize] == word {
                    let (next, note) = World::risen(node, node);
                    ("claim", node, 7, next, note)
                } else {
                    ("claim", node, self.words[node as usize], Phase::Idle, "lost")
                }
            }
            Phase::Climbing { node, at } => {
                ("sweep", at, used(self.words[at as usize]), Phase::Swept { node, at }, "ok")
            }
            Phase::Swept { node, at } => {
                let found = self.words[at as usize];
                let word = found | side_towards(at, node);
                if found & 1 == 1 {
                    ("raise", at, word, Phase::Backing { node }, "under")
                } else {
                    let (next, note) = World::risen(node, at);
                    ("raise", at, word, next, note)
                }
            }
            Phase::Leaving { node } | Phase::Backing { node } => {
                let (next, note) = World::freed(node);
                ("zero", node, 0, next, note)
            }
            Phase::Arriving { at } => {
                ("unmark", at, used(self.words[at as usize]), Phase::Unmarked { at }, "ok")
            }
            Phase::Unmarked { at } => {
                let found = self.words[at as usize];
                let word = found | 1 << (8 + station);
                if found & 1 == 1 {
                    ("mark", at, word, Phase::Idle, "stop")
                } else {
                    let next = Phase::Marked { at, word, left: None, right: None };
                    ("mark", at, word, next, "ok")
                }
            }
            Phase::Marked { at, word, left: None, right } => {
                let found = self.words[2 * at as usize];
                let free = used(found) == 0;
                let next = Phase::Marked { at, word, left: Some(free), right };
                ("child", 2 * at, found, next, if free { "free" } else { "used" })
            }
            Phase::Marked { at, word, left, right: None } => {
                let found = self.words[2 * at as usize + 1];
                let free = used(found) == 0;
                let next = Phase::Marked { at, word, left, right: Some(free) };
                ("child", 2 * at + 1, found, next, if free { "free" } else { "used" })
            }
            Phase::Marked { at, word, left: Some(left), right: Some(right) } => {
                let found = self.words[at as usize];
                if found != word {
                    ("clear", at, found, Phase::Idle, "lost")
                } else {
                    let cut = if left { 2 } else { 0 } | if right { 4 } else { 0 };
                    let cleared = used(word) & !cut;
                    if cleared == 0 {
                        let (next, note) = World::freed(at);
                        ("clear", at, cleared, next, note)
                    } else {
                        ("clear", at, cleared, Phase::Idle, "keep")
                    }
                }
            }
        };
        self.words[node as usize] = word;
        self.phases[station as usize] = next;
        Ok(Event { kind, node, word, note })
    }
}

fn line(text: &str) -> Result<Line, &'static str> {
    let fields: Vec<&str> = text.split(',').collect();
    let [station, call, arg] = fields[..] else {
        return Err("Fields");
    };
    let station = number(station)?;
    let dash = |line| if arg == "-" { Ok(line) } else { Err("Word") };
    match call {
        "take" => Ok(Line::Take { station, node: number(arg)? }),
        "release" => dash(Line::Release { station }),
        "step" => match number(arg)? {
            times @ 1..=100 => Ok(Line::Step { station, times }),
            _ => Err("Number"),
        },
        "run" => dash(Line::Run { station }),
        "retire" => dash(Line::Retire { station }),
        _ => Err("Word"),
    }
}

fn shown(word: u64, text: &mut String) {
    text.clear();
    for (bit, letter) in [(1, 'O'), (2, 'L'), (4, 'R')] {
        if word & bit != 0 {
            text.push(letter);
        }
    }
    if text.is_empty() {
        text.push('-');
    }
    for station in 0..48 {
        if word >> (8 + station) & 1 == 1 {
            let _ = write!(text, "+{station}");
        }
    }
}

fn read() -> Result<Vec<Line>, String> {
    let mut lines = Vec::new();
    for (record, text) in io::stdin().lock().lines().enumerate() {
        let text = text.map_err(|error| error.to_string())?;
        if record == 0 {
            if text != "station,call,arg" {
                return Err("record 0: Word".to_string());
            }
            continue;
        }
        lines.push(line(&text).map_err(|what| format!("record {record}: {what}"))?);
    }
    Ok(lines)
}

struct Output<W> {
    out: W,
    text: String,
}

impl<W: Write> Output<W> {
    fn told(&mut self, station: u64, made: Result<Event, &str>) -> io::Result<()> {
        match made {
            Ok(Event { node: 0, kind, note, .. }) => writeln!(self.out, "{station},{kind},0,-,{note}"),
            Ok(Event { kind, node, word, note }) => {
                shown(word, &mut self.text);
                writeln!(self.out, "{station},{kind},{node},{},{note}", self.text)
            }
            Err(why) => writeln!(self.out, "{station},refused,-,-,{why}"),
        }
    }
}

fn play(n: u32, stations: usize, lines: Vec<Line>) -> io::Result<()> {
    let mut world = World { words: vec![0; 2 << n], phases: vec![Phase::Idle; stations] };
    let mut output = Output { out: BufWriter::new(io::stdout().lock()), text: String::new() };
    writeln!(output.out, "station,event,node,word,note")?;
    for line in lines {
        match line {
            Line::Take { station, node } => {
                let why = match world.phases.get_mut(station as usize) {
                    None => "nostation",
                    Some(phase @ Phase::Idle) if node > 0 && node < 2 << n => {
                        *phase = Phase::Looking { node };
                        continue;
                    }
                    Some(Phase::Idle) => "notincube",
                    Some(_) => "notidle",
                };
                writeln!(output.out, "{station},refused,{node},-,{why}")?;
            }
            Line::Release { station } => match world.phases.get_mut(station as usize) {
                None => output.told(station, Err("nostation"))?,
                Some(phase) => match *phase {
                    Phase::Holding { node } => *phase = Phase::Leaving { node },
                    _ => output.told(station, Err("notholding"))?,
                },
            },
            Line::Step { station, times } => {
                for _ in 0..times {
                    let made = world.step(station);
                    output.told(station, made)?;
                }
            }
            Line::Run { station } => loop {
                match world.step(station) {
                    Err("resting") => break,
                    Ok(event) => output.told(station, Ok(event))?,
                    Err(why) => {
                        output.told(station, Err(why))?;
                        break;
                    }
                }
            },
            Line::Retire { station } => {
                let made = match world.phases.get_mut(station as usize) {
                    None => Err("nostation"),
                    Some(phase @ Phase::Idle) => {
                        *phase = Phase::Retired;
                        world.words[0] |= 1 << station;
                        Ok(Event { kind: "retire", node: 0, word: 0, note: "retired" })
                    }
                    Some(_) => Err("notidle"),
                };
                output.told(station, made)?;
            }
        }
    }
    let mut count = 0;
    for node in 1..world.words.len() {
        if world.words[node] != 0 {
            shown(world.words[node], &mut output.text);
            writeln!(output.out, "-,end,{node},{},-", output.text)?;
            count += 1;
        }
    }
    writeln!(output.out, "-,end,-,-,{count}")?;
    output.out.flush()
}

fn main() -> ExitCode {
    let mut words = env::args().skip(1).filter_map(|word| word.parse::<u32>().ok());
    let n = words.next().unwrap_or(10);
    let stations = words.next().unwrap_or(48);
    match read() {
        Ok(lines) => match play(n, stations as usize, lines) {
            Ok(()) => ExitCode::SUCCESS,
            Err(_) => ExitCode::from(3),
        },
        Err(fault) => {
            eprintln!("refused: {fault}");
            ExitCode::from(1)
        }
    }
}
