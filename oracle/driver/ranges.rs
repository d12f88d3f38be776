//! Ranges to wrap into, and numbers to wrap.

use crate::random::Random;
use crate::values::{dyadic, float, floats, nan, near};
use std::f32::consts::PI;

pub fn bounds(r: &mut Random) -> (f32, f32) {
    match r.below(16) {
        0..=3 => (-1.0, 1.0),
        4 | 5 => (-PI, PI),
        6 => (0.0, 360.0),
        7 | 8 => ordered(f32::from_bits(dyadic(r)), f32::from_bits(dyadic(r))),
        9..=11 => ordered(r.unit() * 1000.0, r.unit() * 1000.0),
        12 => ordered(f32::from_bits(float(r)), f32::from_bits(float(r))),
        13 => far_and_narrow(r),
        14 => ordered(r.one_of(&[f32::NEG_INFINITY, f32::MIN, -1.0]), r.one_of(&[1.0, f32::MAX, f32::INFINITY])),
        _ => refused_bounds(r),
    }
}

fn ordered(a: f32, b: f32) -> (f32, f32) {
    if a > b {
        (b, a)
    } else {
        (a, b)
    }
}

/// Bounds far from zero and a few neighbours apart: the width is small beside them, a step rounds or changes nothing.
fn far_and_narrow(r: &mut Random) -> (f32, f32) {
    let low = (1u32 << 24) as f32 * (1u64 << r.below(20)) as f32;
    let high = f32::from_bits(low.to_bits() + 1 + r.below(4) as u32);
    if r.once_in(2) {
        (low, high)
    } else {
        (-high, -low)
    }
}

/// Reversed, equal or NaN bounds, zeros of opposite sign and bounds that nothing is known of.
pub fn refused_bounds(r: &mut Random) -> (f32, f32) {
    let [a, b] = floats(r).map(f32::from_bits);
    match r.below(5) {
        0 => (a.max(b), a.min(b)),
        1 => (a, a),
        2 => (f32::from_bits(nan(r)), b),
        3 => (a, f32::from_bits(nan(r))),
        _ => (a, b),
    }
}

/// A count of steps, often about the largest that is not refused.
pub fn steps(r: &mut Random) -> f32 {
    (if r.once_in(4) { 61 + r.below(6) } else { r.below(67) }) as f32
}

/// Any number, or one from which a known number of steps leads between the bounds, or a neighbour of one.
pub fn number_to_wrap(r: &mut Random, min: f32, max: f32) -> u32 {
    let width = max - min;
    let steps = steps(r);
    let exact = match r.below(16) {
        0..=4 => min - steps * width,
        5..=9 => max + steps * width,
        10 | 11 => min + r.unit() * 66.0 * width,
        12 | 13 => r.one_of(&[min, max]),
        14 => r.one_of(&[f32::INFINITY, f32::NEG_INFINITY, f32::MAX, (1u64 << 60) as f32, -1e10]),
        _ => return float(r),
    };
    if r.once_in(2) {
        exact.to_bits()
    } else {
        near(r, exact.to_bits())
    }
}
