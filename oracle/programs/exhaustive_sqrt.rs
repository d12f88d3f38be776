//! Rust's square root against that of the project's library, on every f32.

use driver::patterns::same_on_all;
use std::process::exit;

extern "C" {
    fn plumradek_sqrt(x: f32) -> f32;
}

fn main() {
    // Sound because the function takes and gives a number alone.
    let same = same_on_all("sqrt", f32::sqrt, |x| unsafe { plumradek_sqrt(x) });
    exit(!same as i32);
}
