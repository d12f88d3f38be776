//! What the driver holds to be true of the Rust itself. If it is not, no answer of this run can be trusted.

use crate::protocol::written;
use holsatus::fields::{words, Fields};

/// Ends the program unless both numbers are written alike (NaNs are one).
#[inline]
pub fn same(what: &str, a: f32, b: f32) {
    if written(a) != written(b) {
        eprintln!("driver: {what} gives two answers: {:08x} and {:08x}", a.to_bits(), b.to_bits());
        std::process::exit(3);
    }
}

/// Ends the program unless both values are the same words.
pub fn same_words<T: Fields>(what: &str, a: &T, b: &T) {
    let (a, b) = (words(a), words(b));
    if a != b {
        eprintln!("driver: {what} gives two answers: {a:08x?} and {b:08x?}");
        std::process::exit(3);
    }
}
