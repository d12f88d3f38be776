//! airframe/mod.rs. The motors are the Rust's. Their matrix is worked out by document 01's rule, since nalgebra's inverse cannot be
//! had to the last bit; the Rust's own, over the stand-in's inverse, has to be near it.

use crate::generator::{Line, Maker};
use crate::protocol::{Answer, Call, Calls, Table};
use crate::random::Random;
use crate::values::floats;
use holsatus::airframe::{DEV_QUAD_MOTOR_SETUP, MotorSetup};
use holsatus::refusals;

const CALLS: &[Call<()>] = &[
    Call {
        name: "quad_x_basic",
        form: "fffb",
        run: |_, x, to| mixed(&MotorSetup::quad_x_basic(x.float(0), x.float(1), x.float(2), x.flag(3)), to),
    },
    Call {
        name: "quad_p_basic",
        form: "fffb",
        run: |_, x, to| mixed(&MotorSetup::quad_p_basic(x.float(0), x.float(1), x.float(2), x.flag(3)), to),
    },
    Call {
        name: "dev_quad_motor_setup",
        form: "",
        run: |_, _, to| mixed(&DEV_QUAD_MOTOR_SETUP, to),
    },
];

/// Columns (−y, x, −reaction, −1), each entry divided by the sum of its row's squares.
fn mixed(setup: &MotorSetup<4>, to: &mut Answer) {
    let columns = setup.motors().map(|[x, y, reaction]| [-y, x, -reaction, -1.0]);
    let mut sums = [0.0; 4];
    for column in &columns {
        for (sum, c) in sums.iter_mut().zip(column) {
            *sum += c * c;
        }
    }
    let refusal = refusals::first(sums.map(refusals::row_sum));
    to.refusal(refusal);
    let entries = columns.map(|column| core::array::from_fn(|i| if refusal == 0 { column[i] / sums[i] } else { 0.0 }));
    for y in entries.iter().flatten() {
        to.float(*y);
    }
    if sums.iter().all(|sum| (1e-12..1e12).contains(sum)) {
        assert!(near(&entries, setup), "the Rust's own matrix is another");
    }
}

/// Whether the Rust's matrix has these entries, but for the last places and the sign of a zero.
fn near(entries: &[[f32; 4]; 4], setup: &MotorSetup<4>) -> bool {
    let Some(matrix) = setup.into_mixing_matrix() else { return false };
    entries.iter().flatten().zip(matrix.0.iter().flatten()).all(|(y, rust)| (y - rust).abs() <= y.abs() * 1e-6)
}

pub fn tables() -> Vec<Box<dyn Calls>> {
    vec![Box::new(Table { state: (), calls: CALLS })]
}

pub fn lines() -> Box<Maker> {
    Box::new(|r: &mut Random, to: &mut Line| {
        if r.below(64) == 0 {
            return to.call("dev_quad_motor_setup", &[]);
        }
        let [x_dist, y_dist, reaction] = floats(r);
        let flag = r.below(2) as u32;
        to.call(r.one_of(&["quad_x_basic", "quad_p_basic"]), &[x_dist, y_dist, reaction, flag]);
    })
}
