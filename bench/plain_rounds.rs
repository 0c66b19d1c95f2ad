//! The rounds of the five collectives on `2^DIM` places, as plain Rust without crates.
//!
//! `plain_rounds COLLECTIVE DIM TIMES` does the work of `cube_bench rounds`: it repeats one
//! collective of sums and prints a number that all places determine. Build it with
//! `rustc --edition 2021 -O`.

use std::env;
use std::hint::black_box;

fn broadcast(items: &mut [u64], root: usize) {
    let mut half = 1;
    while half < items.len() {
        for v in 0..half {
            items[(v + half) ^ root] = items[v ^ root];
        }
        half *= 2;
    }
}

fn reduce(items: &mut [u64], root: usize) {
    let mut half = 1;
    while half < items.len() {
        for block in items.chunks_exact_mut(2 * half) {
            let (low, high) = block.split_at_mut(half);
            let at = root % half;
            let both = low[at].wrapping_add(high[at]);
            let to_low = root & half == 0;
            low[at] = if to_low { both } else { 0 };
            high[at] = if to_low { 0 } else { both };
        }
        half *= 2;
    }
}

fn all_reduce(items: &mut [u64]) {
    let mut half = 1;
    while half < items.len() {
        for block in items.chunks_exact_mut(2 * half) {
            let (low, high) = block.split_at_mut(half);
            for (a, b) in low.iter_mut().zip(high) {
                let both = a.wrapping_add(*b);
                *a = both;
                *b = both;
            }
        }
        half *= 2;
    }
}

fn scan(items: &mut [u64], totals: &mut [u64]) {
    totals.copy_from_slice(items);
    scan_rounds(items, totals);
}

fn exscan(items: &mut [u64], totals: &mut [u64]) {
    totals.copy_from_slice(items);
    items.fill(0);
    scan_rounds(items, totals);
}

fn scan_rounds(items: &mut [u64], totals: &mut [u64]) {
    let mut half = 1;
    while half < items.len() {
        let blocks = items.chunks_exact_mut(2 * half);
        for (block, sums) in blocks.zip(totals.chunks_exact_mut(2 * half)) {
            let (_, prefixes) = block.split_at_mut(half);
            let (left, right) = sums.split_at_mut(half);
            for ((prefix, a), b) in prefixes.iter_mut().zip(left).zip(right) {
                *prefix = a.wrapping_add(*prefix);
                let both = a.wrapping_add(*b);
                *a = both;
                *b = both;
            }
        }
        half *= 2;
    }
}

fn main() {
    let words: Vec<String> = env::args().collect();
    let dim: u32 = words[2].parse().expect("a dimension");
    let times: u64 = words[3].parse().expect("a number of times");
    let places = 1 << dim;
    let mut items: Vec<u64> = (0..places as u64).collect();
    let mut totals = vec![0; places];
    for _ in 0..times {
        let items = black_box(&mut items[..]);
        match words[1].as_str() {
            "broadcast" => broadcast(items, places - 1),
            "reduce" => reduce(items, places - 1),
            "allreduce" => all_reduce(items),
            "scan" => scan(items, &mut totals),
            "exscan" => exscan(items, &mut totals),
            name => panic!("no collective is called {name}"),
        }
    }
    let digest = items.iter().fold(0, |digest: u64, item| {
        digest.wrapping_mul(31).wrapping_add(*item)
    });
    println!("{digest}");
}
