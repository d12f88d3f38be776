//! Lines for the curves.

use crate::generator::{Line, Maker};
use crate::random::Random;
use crate::values::floats;

/// The calls and the number of their operands. Those of no operands always answer the same.
const SHAPES: [(&str, usize); 17] = [
    ("rates.identity", 1),
    ("rates.actual", 4),
    ("rates.actual", 4),
    ("rates.linear", 3),
    ("rates.linear_new", 4),
    ("rates.linear_set", 4),
    ("rates.linear_set_params", 4),
    ("expo_rates.actual", 4),
    ("expo_rates.actual", 4),
    ("expo_rates.kiss", 4),
    ("expo_rates.kiss", 4),
    ("linear.new", 4),
    ("linear.set", 4),
    ("linear.set_params", 4),
    ("linear.map", 3),
    ("linear.map", 3),
    ("linear.map", 3),
];

const DEFAULTS: [&str; 4] = ["rates.actual_default", "rates.linear_default", "expo_rates.default", "linear.default"];

/// In each line the operands are of one sort: any floats, ordinary ones, or zeros and ones of either sign.
pub fn lines() -> Box<Maker> {
    Box::new(|r: &mut Random, to: &mut Line| {
        if r.once_in(64) {
            return to.call(r.one_of(&DEFAULTS), &[]);
        }
        let (name, count) = r.one_of(&SHAPES);
        let operands: [u32; 4] = match r.below(4) {
            0 | 1 => floats(r),
            2 => [40.0, 1.0, 10.0, 1.0].map(|most: f32| (r.unit() * most).to_bits()),
            _ => [(); 4].map(|_| r.one_of(&[0.0, -0.0, 1.0, -1.0, 0.5, 2.0f32]).to_bits()),
        };
        to.call(name, &operands[..count]);
    })
}
