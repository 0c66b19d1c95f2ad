//! Sorts on a group, by merge exchange: each member sorts a part, and members then exchange parts.

use cubejobs_pool::{Group, Pool};
use std::env;
use std::error::Error;
use std::sync::{Arc, Mutex};
use std::time::Instant;

/// Returns the `count` least values of two sorted lists, or the greatest, in order.
fn merge(one: &[u64], other: &[u64], count: usize, wants_least: bool) -> Vec<u64> {
    let mut merged = Vec::with_capacity(count);
    if wants_least {
        let (mut at, mut there) = (0, 0);
        while merged.len() < count {
            let is_first = there == other.len() || at < one.len() && one[at] <= other[there];
            merged.push(if is_first { one[at] } else { other[there] });
            at += usize::from(is_first);
            there += usize::from(!is_first);
        }
    } else {
        let (mut end, mut there) = (one.len(), other.len());
        while merged.len() < count {
            let is_first = there == 0 || end > 0 && one[end - 1] > other[there - 1];
            merged.push(if is_first { one[end - 1] } else { other[there - 1] });
            end -= usize::from(is_first);
            there -= usize::from(!is_first);
        }
        merged.reverse();
    }
    merged
}

/// Sorts the parts of all members, each of which has a part of the same length. Returns this
/// member's part of the whole, in order.
fn sort_parts(group: &Group<'_>, mut part: Vec<u64>) -> Vec<u64> {
    part.sort_unstable();
    // Batcher's bitonic sort, with a merge for each exchange. The blocks travel as `Arc`s.
    let mut mine = Arc::new(part);
    for stage in 0..group.dim() {
        for dim in (0..=stage).rev() {
            let partner = group.rank() ^ 1 << dim;
            let goes_up = group.rank() >> (stage + 1) & 1 == 0;
            let theirs = group.exchange(partner, mine.clone());
            let wants_least = goes_up == (group.rank() < partner);
            mine = Arc::new(merge(&mine, &theirs, mine.len(), wants_least));
        }
    }
    Arc::try_unwrap(mine).unwrap_or_else(|shared| shared.to_vec())
}

/// Sorts numbers on a group of `2^dim`. They are padded to a multiple of its size.
fn sort(pool: &Pool, dim: u32, numbers: &mut Vec<u64>) {
    let (count, size) = (numbers.len(), 1 << dim);
    let part = count.div_ceil(size).max(1);
    numbers.resize(part * size, u64::MAX);
    let parts: Vec<Mutex<Vec<u64>>> = numbers.chunks(part).map(|it| Mutex::new(it.to_vec())).collect();
    let sorted = pool.run(dim, |group| {
        let mine = std::mem::take(&mut *parts[group.rank()].lock().unwrap());
        sort_parts(group, mine)
    });
    *numbers = sorted.concat();
    numbers.truncate(count);
}

fn main() -> Result<(), Box<dyn Error>> {
    let count = env::args().nth(1).map_or(Ok(1 << 20), |it| it.parse())?;
    let pool = Pool::builder().workers_log2(2).build()?;
    let mut seed = 1_u64;
    let numbers: Vec<u64> = std::iter::repeat_with(|| {
        seed = seed.wrapping_mul(6_364_136_223_846_793_005).wrapping_add(1);
        seed >> 20
    })
    .take(count)
    .collect();
    let mut expected = numbers.clone();
    expected.sort_unstable();
    for dim in 0..=pool.dim() {
        let mut sorted = numbers.clone();
        let start = Instant::now();
        sort(&pool, dim, &mut sorted);
        let time = start.elapsed();
        assert!(sorted == expected, "the numbers are not in order");
        println!("{count} numbers in order on {} workers, in {time:.1?}", 1 << dim);
    }
    Ok(())
}
