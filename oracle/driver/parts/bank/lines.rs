//! Lines on the bank.

use crate::generator::Maker;
use crate::life::{lives, Life};

const LANE: Life = Life {
    name: "bank",
    begin: &[
        &[("close", "L"), ("open", "LgggTd")],
        &[("close", "L"), ("open", "LgggTdl")],
        &[("state", "Lbgggxxxxxxxdbtdxaatdxaaojxaablxi")],
        &[("close", "L")],
    ],
    often: &[("update", "Lyyx")],
    seldom: &[
        ("open", "LgggTd"),
        ("open", "LgggTdl"),
        ("set_ts", "Ld"),
        ("set_gains", "Lggg"),
        ("enable_integral", "Lb"),
        ("reset_integral", "L"),
        ("terms", "L"),
        ("terms", "L"),
        ("show", "L"),
        ("show", "L"),
    ],
    outlives_zero_sums: true,
};

pub fn lines() -> Box<Maker> {
    lives(&[&LANE; 8])
}
