//! Lines on the simple filters.

use crate::generator::Maker;
use crate::life::{self, Life};

/// The life of a filter that is made of tau and dt: its name, its setter of tau, the kinds of its update's operands and of
/// its fields, and whether it goes on with numbers where tau + dt is zero.
macro_rules! made_of_tau_and_dt {
    ($name:literal, $set_tau:literal, $update:literal, $fields:literal, $outlives_zero_sums:literal) => {
        &Life {
            name: $name,
            begin: &[&[("new", "td")], &[("new", "td")], &[("state", $fields)]],
            often: &[("update", $update)],
            seldom: &[("set_dt", "d"), ($set_tau, "t"), ("show", "")],
            outlives_zero_sums: $outlives_zero_sums,
        }
    };
}

const MOVING_AVERAGE: Life = Life {
    name: "moving_average",
    begin: &[&[("new", "n")], &[("new_with_value", "nx")], &[("state", "hxxxxxxxxxxxxxxxx")]],
    often: &[("update", "x")],
    seldom: &[("show", "")],
    outlives_zero_sums: false,
};

const SLEW_RATE: Life = Life {
    name: "slew_rate",
    begin: &[&[("new", "li")], &[("state", "lxi")]],
    often: &[("update", "x")],
    seldom: &[("set_dt", "i"), ("show", "")],
    outlives_zero_sums: false,
};

pub fn lines() -> Box<Maker> {
    life::lives(&[
        made_of_tau_and_dt!("lowpass", "set_tau", "x", "tdxaa", true),
        made_of_tau_and_dt!("lowpass2", "configure", "x", "tdxaaojxaa", true),
        made_of_tau_and_dt!("highpass", "set_tau", "x", "tdxxa", false),
        made_of_tau_and_dt!("complementary", "set_tau", "xx", "tdxaaojxxa", false),
        made_of_tau_and_dt!("integrating_highpass", "set_tau", "x", "tdax", false),
        made_of_tau_and_dt!("integrating_complementary", "set_tau", "xx", "tdax", false),
        &MOVING_AVERAGE,
        &SLEW_RATE,
    ])
}
