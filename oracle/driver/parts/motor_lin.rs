//! filters/motor_lin.rs.

use crate::generator::Maker;
use crate::life::{lives, Life};
use crate::protocol::{Call, Calls};
use crate::states::{by_hand, call, construct_checked, show, table};
use holsatus::filters::motor_lin::MotorLin;

const CALLS: &[Call<MotorLin<f32>>] = &[
    Call {
        name: "motor_lin.new",
        form: "ffff",
        run: |s, x, to| construct_checked(s, to, || MotorLin::new(x.float(0), x.float(1), x.float(2), x.float(3))),
    },
    Call {
        name: "motor_lin.command_to_force",
        form: "f",
        run: |s, x, to| call(s, to, |m| m.command_to_force(x.float(0))),
    },
    Call {
        name: "motor_lin.force_to_command",
        form: "f",
        run: |s, x, to| call(s, to, |m| m.force_to_command(x.float(0))),
    },
    Call { name: "motor_lin.min_force", form: "", run: |s, _, to| call(s, to, |m| m.min_force()) },
    Call { name: "motor_lin.max_force", form: "", run: |s, _, to| call(s, to, |m| m.max_force()) },
    Call { name: "motor_lin.show", form: "", run: show },
    Call { name: "motor_lin.state", form: "ffffff", run: by_hand },
];

pub fn tables() -> Vec<Box<dyn Calls>> {
    vec![table(CALLS)]
}

const LIFE: Life = Life {
    name: "motor_lin",
    begin: &[&[("new", "lam")], &[("state", "lamm")]],
    often: &[("command_to_force", "c"), ("force_to_command", "c")],
    seldom: &[("new", "lam"), ("new", "lam"), ("min_force", ""), ("max_force", ""), ("show", "")],
    outlives_zero_sums: false,
};

pub fn lines() -> Box<Maker> {
    lives(&[&LIFE])
}
