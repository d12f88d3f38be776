//! Lines for the lookup in a table.

use crate::generator::{Line, Maker};
use crate::random::Random;
use crate::values::{dyadic, float, nan, near};

pub fn lines() -> Box<Maker> {
    Box::new(line)
}

fn line(r: &mut Random, to: &mut Line) {
    let places = places(r);
    let x = wanted(r, &places);
    let mut operands = vec![x];
    for place in places {
        let y = if r.once_in(8) { float(r) } else { (r.unit() * 10.0).to_bits() };
        operands.extend([place, y]);
    }
    // An odd run.
    if r.once_in(20) {
        operands.push(float(r));
    }
    to.call("linear_lut", &operands);
}

/// The points' x: mostly rising; at times some are equal, NaN, infinite or in no order.
fn places(r: &mut Random) -> Vec<u32> {
    let count = match r.below(16) {
        0 => r.below(2),
        1 => r.below(110),
        _ => 2 + r.below(6),
    };
    let mut places: Vec<f32> = (0..count)
        .map(|_| match r.below(16) {
            0 => f32::from_bits(float(r)),
            1..=8 => f32::from_bits(dyadic(r)),
            _ => r.unit() * 20.0,
        })
        .collect();
    if !r.once_in(6) {
        places.sort_by(f32::total_cmp);
    }
    if count > 0 && r.once_in(12) {
        let other = r.one_of(&places);
        places[r.below(count)] = r.one_of(&[f32::NAN, f32::INFINITY, f32::NEG_INFINITY, other]);
    }
    places.into_iter().map(f32::to_bits).collect()
}

/// The x to look up: a point's, next to one, between two, outside of all, or any.
fn wanted(r: &mut Random, places: &[u32]) -> u32 {
    if places.is_empty() || r.once_in(12) {
        return if r.once_in(3) { nan(r) } else { float(r) };
    }
    let place = r.one_of(places);
    match r.below(4) {
        0 => place,
        1 => near(r, place),
        2 => ((f32::from_bits(place) + f32::from_bits(r.one_of(places))) / 2.0).to_bits(),
        _ => (r.unit() * 25.0).to_bits(),
    }
}
