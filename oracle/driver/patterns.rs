//! All f32 there are: a comparison of two functions of one number on all 2^32 patterns.

use crate::protocol::written;
use std::thread;

const THREADS: u64 = 2;
const ALL: u64 = 1 << 32;
/// So many differences are shown; all are counted.
const SHOWN: usize = 10;

struct Found {
    nans: u64,
    differ: u64,
    first: Vec<String>,
}

/// Compares on every pattern, prints what was found, and tells whether the two functions are the same.
pub fn same_on_all(what: &str, rust: fn(f32) -> f32, other: fn(f32) -> f32) -> bool {
    let share = ALL / THREADS;
    let threads: Vec<_> =
        (0..THREADS).map(|i| thread::spawn(move || compare(i * share..(i + 1) * share, rust, other))).collect();
    let found: Vec<Found> = threads.into_iter().map(|thread| thread.join().unwrap()).collect();
    for line in found.iter().flat_map(|part| &part.first) {
        println!("{what} {line}");
    }
    let differ: u64 = found.iter().map(|part| part.differ).sum();
    let nans: u64 = found.iter().map(|part| part.nans).sum();
    println!("{what}: {ALL} compared ({nans} answers NaN), {differ} differ");
    differ == 0
}

fn compare(patterns: std::ops::Range<u64>, rust: fn(f32) -> f32, other: fn(f32) -> f32) -> Found {
    let mut found = Found { nans: 0, differ: 0, first: Vec::new() };
    for pattern in patterns {
        let x = f32::from_bits(pattern as u32);
        let (a, b) = (rust(x), other(x));
        found.nans += a.is_nan() as u64;
        if written(a) != written(b) {
            found.differ += 1;
            if found.first.len() < SHOWN {
                found.first.push(format!("{pattern:08x}: Rust {:08x}, other {:08x}", written(a), written(b)));
            }
        }
    }
    found
}
