//! Rust's powi against the products of document 01, on every f32. Rust promises no exact bits for powi.

use driver::patterns::same_on_all;
use std::hint::black_box;
use std::process::exit;

fn main() {
    let same = [
        same_on_all("powi 3, written out", |x| x.powi(3), |x| x * (x * x)),
        same_on_all("powi 3, called", |x| x.powi(black_box(3)), |x| x * (x * x)),
        same_on_all("powi 5, written out", |x| x.powi(5), |x| x * ((x * x) * (x * x))),
        same_on_all("powi 5, called", |x| x.powi(black_box(5)), |x| x * ((x * x) * (x * x))),
    ];
    exit(same.contains(&false) as i32);
}
