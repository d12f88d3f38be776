//! Lines on the notch and on three in a row.

use crate::generator::Maker;
use crate::life::{lives, Life};

const NOTCH: Life = Life {
    name: "notch",
    begin: &[&[("new", "f")], &[("new", "f")], &[("state", "fqxxxxxx")]],
    often: &[("update", "x")],
    seldom: &[("set_freq_center", "k"), ("set_freq_bandwidth", "v"), ("show", "")],
    outlives_zero_sums: false,
};

/// The kinds of the fields of three.
const THREE: &str = "fqxxxxxxfqxxxxxxfqxxxxxx";

/// The last two beginnings put a run through whole, then from the same state again in parts: each answer is held to the
/// Rust's, which goes sample by sample.
const NOTCHES: Life = Life {
    name: "notches",
    begin: &[
        &[("new", "fff")],
        &[("new", "fff")],
        &[("state", THREE)],
        &[("state", THREE), ("run", "u"), ("show", ""), ("state", "="), ("run", "U"), ("run", "V"), ("show", "")],
        &[
            ("state", THREE),
            ("run", "u"),
            ("show", ""),
            ("state", "="),
            ("run", "U"),
            ("run", "U"),
            ("run", "U"),
            ("run", "U"),
            ("run", "V"),
            ("show", ""),
        ],
    ],
    often: &[("run", "u")],
    seldom: &[("show", "")],
    outlives_zero_sums: false,
};

pub fn lines() -> Box<Maker> {
    lives(&[&NOTCH, &NOTCHES])
}
