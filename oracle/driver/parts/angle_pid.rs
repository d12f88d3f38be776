//! filters/angle_pid.rs.

mod lines;

use crate::check::same;
use crate::counted::{counting_outside, Counted, Stopped, MOST_STEPS};
use crate::protocol::{Answer, Call, Calls, Operands};
use crate::states::{by_hand, call, call_checked, construct, construct_checked, show, table};
use holsatus::fields::{recast, State};
use holsatus::filters::angle_pid::{AntiWindup, Pid};
use holsatus::refusals;
pub use lines::lines;
use num_traits::Float;
use std::ops::{AddAssign, SubAssign};

const CALLS: &[Call<Pid<f32>>] = &[
    Call { name: "pid.new", form: "fffbf", run: new },
    Call {
        name: "pid.with_config",
        form: "fffbbffbffbffbff",
        run: |s, x, to| construct_checked(s, to, || Pid::with_config(x.fields(0), x.float(15))),
    },
    Call {
        name: "pid.set_wrapping",
        form: "ff",
        run: |s, x, to| set_range(s, x, to, |p, min, max| p.set_wrapping(min, max)),
    },
    Call {
        name: "pid.set_output_limit",
        form: "ff",
        run: |s, x, to| set_range(s, x, to, |p, min, max| p.set_output_limit(min, max)),
    },
    Call {
        name: "pid.set_anti_windup",
        form: "ff",
        run: |s, x, to| set_range(s, x, to, |p, min, max| p.set_anti_windup(AntiWindup::Conditional((min, max)))),
    },
    Call {
        name: "pid.set_lp_filter",
        form: "f",
        run: |s, x, to| call_checked(s, refusals::tau(x.float(0)), to, |p| *p = p.set_lp_filter(x.float(0))),
    },
    Call {
        name: "pid.set_gains",
        form: "fff",
        run: |s, x, to| call(s, to, |p| *p = p.set_gains(x.float(0), x.float(1), x.float(2))),
    },
    Call { name: "pid.reset_integral", form: "", run: |s, _, to| call(s, to, |p| p.reset_integral()) },
    Call { name: "pid.reset_integral_to", form: "f", run: |s, x, to| call(s, to, |p| p.reset_integral_to(x.float(0))) },
    Call { name: "pid.enable_integral", form: "b", run: |s, x, to| call(s, to, |p| p.enable_integral(x.flag(0))) },
    Call {
        name: "pid.enable_reset_integral",
        form: "b",
        run: |s, x, to| call(s, to, |p| p.enable_reset_integral(x.flag(0))),
    },
    Call { name: "pid.update", form: "f", run: update },
    Call { name: "pid.update_ts", form: "ff", run: update },
    Call { name: "pid.show", form: "", run: show },
    Call { name: "pid.state", form: "fffffbfbffbffbffbfffff", run: by_hand },
];

pub fn tables() -> Vec<Box<dyn Calls>> {
    vec![table(CALLS)]
}

fn new(pid: &mut Pid<f32>, x: &Operands, to: &mut Answer) {
    construct(pid, 0, to, || Pid::new(x.float(0), x.float(1), x.float(2), x.flag(3), x.float(4)));
}

fn set_range(pid: &mut Pid<f32>, x: &Operands, to: &mut Answer, set: fn(Pid<f32>, f32, f32) -> Pid<f32>) {
    let (min, max) = x.fields(0);
    call_checked(pid, refusals::range(min, max), to, |p| *p = set(*p, min, max));
}

/// Both updates: the second operand, where there is one, is the sampling time.
fn update(pid: &mut Pid<f32>, x: &Operands, to: &mut Answer) {
    let refusal = pid.refusal();
    if refusal != 0 {
        to.refusal(refusal).float(0.0).number(0);
        return;
    }
    let (error, ts) = (x.float(0), x.optional_float(1));
    let mut counted: Pid<Counted> = recast(pid);
    // The error is the only number outside of the controller that is changed in place.
    match counting_outside(MOST_STEPS, &mut counted, |p| run(p, Counted(error), ts.map(Counted))) {
        Ok((Counted(y), steps)) => {
            same("Pid", y, run(pid, error, ts));
            to.refusal(0).float(y).number(steps);
        }
        Err(Stopped::PastLimit) => {
            to.refusal(6).float(0.0).number(MOST_STEPS);
        }
        Err(Stopped::Panic) => panic!("the Rust's update does not panic"),
    }
}

fn run<F: Float + AddAssign + SubAssign>(pid: &mut Pid<F>, error: F, ts: Option<F>) -> F {
    match ts {
        Some(ts) => pid.update_ts(error, ts),
        None => pid.update(error),
    }
}
