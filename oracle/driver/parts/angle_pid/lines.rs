//! Lines on the angle controller.

use crate::generator::Maker;
use crate::life::{lives, Life};

const LIFE: Life = Life {
    name: "pid",
    begin: &[
        &[("new", "gggbd")],
        &[("new", "gggbd"), ("set_wrapping", "w"), ("set_anti_windup", "r"), ("set_lp_filter", "p")],
        &[("with_config", "gggbbwbrbrbpd")],
        &[("with_config", "gggbbwbrbrbpd")],
        &[("state", "gggdxbxbwbrbrbpjxaa")],
    ],
    often: &[("update", "e"), ("update", "e"), ("update_ts", "ei")],
    seldom: &[
        ("set_wrapping", "w"),
        ("set_output_limit", "r"),
        ("set_anti_windup", "r"),
        ("set_lp_filter", "p"),
        ("set_gains", "ggg"),
        ("reset_integral", ""),
        ("reset_integral_to", "x"),
        ("enable_integral", "b"),
        ("enable_reset_integral", "b"),
        ("show", ""),
    ],
    outlives_zero_sums: true,
};

pub fn lines() -> Box<Maker> {
    lives(&[&LIFE])
}
