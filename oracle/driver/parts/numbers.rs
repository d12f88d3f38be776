//! The section `Numbers`: f32's own methods (`max` and `min` as the sources get them, by the stand-in) and utils/func.rs.

mod lines;

use crate::check::same;
use crate::counted::{counting, Counted, Stopped, MOST_STEPS};
use crate::panics::caught;
use crate::protocol::{Answer, Call, Calls, Operands, Table};
use holsatus::utils::func;
pub use lines::lines;
use num_traits::Float;
use std::hint::black_box;

const CALLS: &[Call<()>] = &[
    Call { name: "max", form: "ff", run: |_, x, to| result(Float::max(x.float(0), x.float(1)), to) },
    Call { name: "min", form: "ff", run: |_, x, to| result(Float::min(x.float(0), x.float(1)), to) },
    Call { name: "clamp", form: "fff", run: |_, x, to| clamp(x, to) },
    Call { name: "abs", form: "f", run: |_, x, to| result(x.float(0).abs(), to) },
    Call { name: "powi3", form: "f", run: |_, x, to| result(powi::<3>(x.float(0)), to) },
    Call { name: "powi5", form: "f", run: |_, x, to| result(powi::<5>(x.float(0)), to) },
    Call { name: "sqrt", form: "f", run: |_, x, to| result(x.float(0).sqrt(), to) },
    Call { name: "linear_map", form: "fffff", run: |_, x, to| linear_map(x, to) },
    Call { name: "wrap", form: "fff", run: |_, x, to| wrap(x, to) },
];

pub fn tables() -> Vec<Box<dyn Calls>> {
    vec![Box::new(Table { state: (), calls: CALLS })]
}

fn result(y: f32, to: &mut Answer) {
    to.refusal(0).float(y);
}

/// The Rust panics where the bounds are reversed or one is NaN; document 01 answers there.
fn clamp(x: &Operands, to: &mut Answer) {
    match caught(|| x.float(0).clamp(x.float(1), x.float(2))) {
        Ok(y) => result(y, to),
        Err(_) => to.none(),
    }
}

/// The compiler writes out a power that it knows, and calls a library for one that it does not: both are run.
fn powi<const N: i32>(x: f32) -> f32 {
    let y = x.powi(black_box(N));
    same("powi", y, x.powi(N));
    y
}

fn linear_map(x: &Operands, to: &mut Answer) {
    result(func::linear_map(x.float(0), x.float(1), x.float(2), x.float(3), x.float(4)), to);
}

fn wrap(x: &Operands, to: &mut Answer) {
    let (num, min, max) = (x.float(0), x.float(1), x.float(2));
    // One subtraction is the width's own, all others are steps.
    match counting(1 + MOST_STEPS, || func::wrap(Counted(num), Counted(min), Counted(max))) {
        Ok((Counted(y), done)) => {
            same("wrap", y, func::wrap(num, min, max));
            to.refusal(0).float(y).number(done - 1);
        }
        Err(Stopped::Panic) => {
            to.refusal(1).float(0.0).number(0);
        }
        Err(Stopped::PastLimit) => {
            to.refusal(6).float(0.0).number(MOST_STEPS);
        }
    }
}
