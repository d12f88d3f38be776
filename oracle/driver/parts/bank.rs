//! The bank: eight of the Rust's rate controllers, each open or closed.

mod lines;

use crate::protocol::{Answer, Call, Calls, Operands, Table};
use holsatus::fields::{all_zero, Fields, State};
use holsatus::filters::rate_pid::RatePid;
use holsatus::{rate_pid_form, refusals};
pub use lines::lines;

/// An open lane or a closed one, and its controller.
type Lane = (bool, RatePid);
type Bank = [Lane; 8];

const CALLS: &[Call<Bank>] = &[
    Call { name: "bank.open", form: "nffffff?", run: open },
    Call { name: "bank.close", form: "n", run: |s, x, to| on_open(s, x, to, |lane| *lane = all_zero()) },
    Call {
        name: "bank.update",
        form: "nfff",
        run: |s, x, to| on_open(s, x, to, |(_, p)| p.update(x.float(1), x.float(2), x.float(3))),
    },
    Call { name: "bank.set_ts", form: "nf", run: |s, x, to| on_open(s, x, to, |(_, p)| p.set_ts(x.float(1))) },
    Call {
        name: "bank.set_gains",
        form: "nfff",
        run: |s, x, to| on_open(s, x, to, |(_, p)| p.set_gains(x.float(1), x.float(2), x.float(3))),
    },
    Call {
        name: "bank.enable_integral",
        form: "nb",
        run: |s, x, to| on_open(s, x, to, |(_, p)| p.enable_integral(x.flag(1))),
    },
    Call { name: "bank.reset_integral", form: "n", run: |s, x, to| on_open(s, x, to, |(_, p)| p.reset_integral()) },
    Call { name: "bank.terms", form: "n", run: |s, x, to| on_open(s, x, to, |(_, p)| *p.get_terms()) },
    Call { name: "bank.show", form: "l", run: |s, x, to| show(&s[x.number(0) as usize], to) },
    Call {
        name: "bank.state",
        form: concat!("lb", rate_pid_form!()),
        run: |s, x, to| by_hand(&mut s[x.number(0) as usize], x, to),
    },
];

pub fn tables() -> Vec<Box<dyn Calls>> {
    vec![Box::new(Table { state: all_zero::<Bank>(), calls: CALLS })]
}

fn show(lane: &Lane, to: &mut Answer) {
    to.refusal(0).fields(lane);
}

fn by_hand(lane: &mut Lane, x: &Operands, to: &mut Answer) {
    *lane = x.fields(1);
    to.refusal(0);
}

fn open(bank: &mut Bank, x: &Operands, to: &mut Answer) {
    let [kp, ki, kd, tau, dt] = x.fields(1);
    let limit = x.optional_float(6);
    let own = limit.map_or(0, refusals::slew_limit);
    on_lane(bank, x, false, own, to, |lane| {
        let pid = RatePid::new(kp, ki, kd, tau, dt);
        *lane = (
            true,
            match limit {
                Some(limit) => pid.slew(limit),
                None => pid,
            },
        );
    });
}

/// A call that an open lane takes; it refuses nothing else of its own.
fn on_open<R: Fields>(bank: &mut Bank, x: &Operands, to: &mut Answer, run: impl FnOnce(&mut Lane) -> R) {
    on_lane(bank, x, true, 0, to, run);
}

/// A call on the lane that the first operand names, which must be open, or closed: the refusals are, in order, 8,
/// 9 or 10, that of the stored controller, the call's own.
fn on_lane<R: Fields>(
    bank: &mut Bank,
    x: &Operands,
    open: bool,
    own: u32,
    to: &mut Answer,
    run: impl FnOnce(&mut Lane) -> R,
) {
    let lane = bank.get_mut(x.number(0) as usize);
    let refusal = match &lane {
        None => 8,
        Some((false, _)) if open => 9,
        Some((true, _)) if !open => 10,
        Some((_, pid)) => refusals::first([pid.refusal(), own]),
    };
    let result = match lane {
        Some(lane) if refusal == 0 => run(lane),
        _ => all_zero(),
    };
    to.refusal(refusal).fields(&result);
}
