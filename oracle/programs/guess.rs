//! The root's guess without its search, against Rust's own root.

use std::ops::Range;
use std::process::exit;
use std::thread;

/// The text of the crate `root`, as `oracle/guess` leaves it, with a search that has no answer.
mod without_search {
    fn by_search(_: f32) -> f32 {
        f32::NAN
    }

    include!(env!("PLUMRADEK_ROOT_TEXT"));
}

const SUBNORMALS: Range<u32> = 1..0x80_0000;
/// From 1 to below 4.
const EVERY_DIGIT: Range<u32> = 0x3f80_0000..0x4080_0000;
/// Every finite number above zero, in two parts for two threads.
const LOWER: Range<u32> = 1..0x3f80_0000;
const UPPER: Range<u32> = 0x3f80_0000..0x7f80_0000;

/// How many of the numbers have another answer than Rust's, which is then the search's NaN.
fn left(patterns: Range<u32>) -> usize {
    let differs = |x: &f32| without_search::sqrt(*x).to_bits() != x.sqrt().to_bits();
    patterns.map(f32::from_bits).filter(differs).count()
}

fn main() {
    let ranges = if std::env::args().len() > 1 { [LOWER, UPPER] } else { [SUBNORMALS, EVERY_DIGIT] };
    let asked: usize = ranges.iter().map(|range| range.len()).sum();
    let threads: Vec<_> = ranges.map(|range| thread::spawn(move || left(range))).into_iter().collect();
    let left: usize = threads.into_iter().map(|thread| thread.join().unwrap()).sum();
    println!("guess: of {asked} numbers {left} left to the search");
    exit((left > 0) as i32);
}
