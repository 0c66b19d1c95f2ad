//! Tables of figures: systems that are measured in turn.

use std::fs;
use std::hint::black_box;
use std::time::Instant;

/// A system: its name, the ratio to the first system that is its bar, if it has one, and a call
/// that returns a figure.
pub type System<'a> = (&'static str, Option<f64>, Box<dyn FnMut() -> f64 + 'a>);

/// Returns whether a bar is met, in words.
pub fn verdict(is_met: bool) -> &'static str {
    if is_met {
        "met"
    } else {
        "MISSED"
    }
}

pub fn load() -> String {
    let text = fs::read_to_string("/proc/loadavg").unwrap_or_default();
    text.split(' ').next().unwrap_or("?").to_string()
}

/// Measures the systems in turn, in as many rounds. Prints the least and the median of each, the
/// median ratio to the first system within a round, and whether it meets its bar.
pub fn table(title: &str, rounds: usize, mut systems: Vec<System<'_>>) {
    let before = load();
    let count = systems.len();
    let mut figures = vec![Vec::new(); count];
    for round in 0..rounds {
        for turn in 0..count {
            let at = (turn + round) % count;
            figures[at].push(systems[at].2());
        }
    }
    println!("\n{title} (load {before} to {})", load());
    let first = figures[0].clone();
    for ((name, bar, _), mut times) in systems.into_iter().zip(figures) {
        let ratio =
            median(&mut times.iter().zip(&first).map(|(time, first)| time / first).collect::<Vec<_>>());
        let middle = median(&mut times);
        let bar = bar.map(|bar| format!("  at most {bar:.2}: {}", verdict(ratio <= bar)));
        let bar = bar.unwrap_or_default();
        println!("  {name:32} least {:9.1}  median {middle:9.1}  ratio {ratio:5.2}{bar}", times[0]);
    }
}

/// Sorts the figures, and returns the one in the middle.
pub fn median(figures: &mut [f64]) -> f64 {
    figures.sort_by(f64::total_cmp);
    figures[figures.len() / 2]
}

/// Returns the nanoseconds since then, for each of `count` things.
pub fn each(start: Instant, count: usize) -> f64 {
    start.elapsed().as_nanos() as f64 / count as f64
}

/// Computes for a time: about 2 ns for each step.
pub fn work(steps: u32) -> u64 {
    let step =
        |x: u64, step| black_box(x.wrapping_mul(6_364_136_223_846_793_005).wrapping_add(u64::from(step)));
    black_box((0..steps).fold(1, step))
}
