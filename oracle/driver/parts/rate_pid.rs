//! filters/rate_pid.rs.

use crate::generator::Maker;
use crate::life::{lives, Life};
use crate::protocol::{Answer, Call, Calls, Operands};
use crate::states::{by_hand, call, call_checked, construct, show, table};
use holsatus::fields::all_zero;
use holsatus::filters::rate_pid::RatePid;
use holsatus::{rate_pid_form, refusals};
use std::mem::replace;

const CALLS: &[Call<RatePid>] = &[
    Call { name: "rate_pid.new", form: "fffff", run: new },
    Call { name: "rate_pid.slew", form: "f", run: slew },
    Call { name: "rate_pid.set_ts", form: "f", run: |s, x, to| call(s, to, |p| p.set_ts(x.float(0))) },
    Call {
        name: "rate_pid.set_gains",
        form: "fff",
        run: |s, x, to| call(s, to, |p| p.set_gains(x.float(0), x.float(1), x.float(2))),
    },
    Call { name: "rate_pid.enable_integral", form: "b", run: |s, x, to| call(s, to, |p| p.enable_integral(x.flag(0))) },
    Call { name: "rate_pid.reset_integral", form: "", run: |s, _, to| call(s, to, |p| p.reset_integral()) },
    Call {
        name: "rate_pid.enable_reset_integral",
        form: "b",
        run: |s, x, to| call(s, to, |p| p.enable_reset_integral(x.flag(0))),
    },
    // The Rust has the one in place only.
    Call { name: "rate_pid.update", form: "fff", run: update },
    Call { name: "rate_pid.update_in_place", form: "fff", run: update },
    Call { name: "rate_pid.get_terms", form: "", run: |s, _, to| call(s, to, |p| *p.get_terms()) },
    Call { name: "rate_pid.show", form: "", run: show },
    Call { name: "rate_pid.state", form: rate_pid_form!(), run: by_hand },
];

pub fn tables() -> Vec<Box<dyn Calls>> {
    vec![table(CALLS)]
}

fn new(pid: &mut RatePid, x: &Operands, to: &mut Answer) {
    let [kp, ki, kd, tau, dt] = x.fields(0);
    construct(pid, 0, to, || RatePid::new(kp, ki, kd, tau, dt));
}

fn slew(pid: &mut RatePid, x: &Operands, to: &mut Answer) {
    let limit = x.float(0);
    call_checked(pid, refusals::slew_limit(limit), to, |p| *p = replace(p, all_zero()).slew(limit));
}

fn update(pid: &mut RatePid, x: &Operands, to: &mut Answer) {
    call(pid, to, |p| p.update(x.float(0), x.float(1), x.float(2)));
}

const LIFE: Life = Life {
    name: "rate_pid",
    begin: &[&[("new", "gggtd")], &[("new", "gggtd"), ("slew", "l")], &[("state", "gggxxxxxxxdbtdxaatdxaaojxaablxi")]],
    often: &[("update", "yyx"), ("update", "yyx"), ("update_in_place", "yyx")],
    seldom: &[
        ("set_ts", "d"),
        ("set_gains", "ggg"),
        ("enable_integral", "b"),
        ("reset_integral", ""),
        ("enable_reset_integral", "b"),
        ("get_terms", ""),
        ("get_terms", ""),
        ("show", ""),
        ("slew", "l"),
    ],
    outlives_zero_sums: true,
};

pub fn lines() -> Box<Maker> {
    lives(&[&LIFE])
}
