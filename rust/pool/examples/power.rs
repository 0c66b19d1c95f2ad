//! The power method: the largest eigenvalue of a matrix, whose rows the members share.

use cubejobs_pool::{Group, Pool};
use std::error::Error;

const SIZE: usize = 256;

/// Returns an entry of the matrix: 2 on the diagonal, -1 beside it. Its eigenvalues are known.
fn entry(row: usize, column: usize) -> f64 {
    match row.abs_diff(column) {
        0 => 2.0,
        1 => -1.0,
        _ => 0.0,
    }
}

/// Returns this member's rows of the matrix times the vector.
fn multiply(rows: std::ops::Range<usize>, vector: &[f64]) -> Vec<f64> {
    rows.map(|row| vector.iter().enumerate().map(|(column, it)| entry(row, column) * it).sum()).collect()
}

/// Returns the largest eigenvalue, and the number of steps.
fn largest(group: &Group<'_>) -> (f64, usize) {
    let part = SIZE / group.size();
    let rows = group.rank() * part..(group.rank() + 1) * part;
    let mut vector: Vec<f64> = (0..SIZE).map(|row| if row % 2 == 0 { 1.0 } else { -0.5 }).collect();
    let mut last = 0.0;
    for step in 1.. {
        let mine = multiply(rows.clone(), &vector);
        let square = group.all_reduce(mine.iter().map(|it| it * it).sum::<f64>(), |a, b| a + b);
        let value = square.sqrt();
        if (value - last).abs() < 1e-9 {
            return (value, step);
        }
        last = value;
        let scaled: Vec<f64> = mine.into_iter().map(|it| it / value).collect();
        vector = group.all_gather(scaled).concat();
    }
    unreachable!("the steps have no end")
}

fn main() -> Result<(), Box<dyn Error>> {
    let pool = Pool::builder().workers_log2(2).build()?;
    let known = 2.0 + 2.0 * (std::f64::consts::PI / (SIZE + 1) as f64).cos();
    for dim in 0..=pool.dim() {
        let (value, steps) = pool.run(dim, largest)[0];
        assert!((value - known).abs() < 1e-3, "{value} is not {known}");
        println!("the largest eigenvalue is {value:.4}, after {steps} steps on {} workers", 1 << dim);
    }
    Ok(())
}
