//! Lines for the section `Numbers`.

use crate::generator::{Line, Maker};
use crate::random::Random;
use crate::ranges::{bounds, number_to_wrap};
use crate::values::{float, floats};

/// Wrapping has the most ways to go wrong, so it comes most often.
const NAMES: [&str; 12] =
    ["max", "max", "min", "min", "clamp", "abs", "powi3", "powi5", "sqrt", "linear_map", "wrap", "wrap"];

pub fn lines() -> Box<Maker> {
    Box::new(line)
}

fn line(r: &mut Random, to: &mut Line) {
    let name = r.one_of(&NAMES);
    match name {
        "max" | "min" => to.call(name, &pair(r)),
        "clamp" => to.call(name, &clamp(r)),
        "linear_map" => to.call(name, &floats::<5>(r)),
        "wrap" => to.call(name, &wrap(r)),
        _ => to.call(name, &[float(r)]),
    }
}

/// Two operands, both zeros in either order among them.
fn pair(r: &mut Random) -> [u32; 2] {
    if r.once_in(16) {
        let zero = r.one_of(&[0, 0x8000_0000]);
        [zero, zero ^ 0x8000_0000]
    } else {
        floats(r)
    }
}

/// A number and two bounds, which are mostly in order: else the Rust has no answer.
fn clamp(r: &mut Random) -> [u32; 3] {
    let [x, low, high] = floats(r).map(f32::from_bits);
    let (low, high) = if low > high && !r.once_in(8) { (high, low) } else { (low, high) };
    [x, low, high].map(f32::to_bits)
}

fn wrap(r: &mut Random) -> [u32; 3] {
    let (min, max) = bounds(r);
    let num = number_to_wrap(r, min, max);
    [num, min.to_bits(), max.to_bits()]
}
