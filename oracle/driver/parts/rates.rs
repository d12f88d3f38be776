//! The curves: tasks/rc_binder/rates.rs, and `ExpoRates` and `Linear` of filters/mod.rs.

mod lines;

use crate::protocol::{Answer, Call, Calls, Operands, Table};
use holsatus::filters::{default_expo_rates, ExpoRates, Linear, RatesType};
use holsatus::tasks::rc_binder::rates::{self, Actual, Rates};
pub use lines::lines;

const CALLS: &[Call<()>] = &[
    Call { name: "rates.identity", form: "f", run: |_, x, to| results([Rates::Identity.apply(x.float(0))], to) },
    Call { name: "rates.actual", form: "ffff", run: |_, x, to| actual(x, to) },
    Call { name: "rates.linear", form: "fff", run: |_, x, to| linear(x, to) },
    Call { name: "rates.linear_new", form: "ffff", run: |_, x, to| line(from_four(x, rates::Linear::new), to) },
    Call { name: "rates.linear_set", form: "ffff", run: |_, x, to| line(set(x, rates::Linear::set), to) },
    Call { name: "rates.linear_set_params", form: "ffff", run: |_, x, to| line(set(x, rates::Linear::set_params), to) },
    Call { name: "rates.actual_default", form: "", run: |_, _, to| actual_default(to) },
    Call { name: "rates.linear_default", form: "", run: |_, _, to| line(rates::Linear::first(), to) },
    Call { name: "expo_rates.default", form: "", run: |_, _, to| results(default_expo_rates(), to) },
    Call { name: "expo_rates.actual", form: "ffff", run: |_, x, to| expo_rates(RatesType::Actual, x, to) },
    Call { name: "expo_rates.kiss", form: "ffff", run: |_, x, to| expo_rates(RatesType::Kiss, x, to) },
    Call { name: "linear.default", form: "", run: |_, _, to| line(Linear::first(), to) },
    Call { name: "linear.new", form: "ffff", run: |_, x, to| line(from_four(x, Linear::new), to) },
    Call { name: "linear.set", form: "ffff", run: |_, x, to| line(set(x, Linear::set), to) },
    Call { name: "linear.set_params", form: "ffff", run: |_, x, to| line(set(x, Linear::set_params), to) },
    Call { name: "linear.map", form: "fff", run: |_, x, to| map(x, to) },
];

pub fn tables() -> Vec<Box<dyn Calls>> {
    vec![Box::new(Table { state: (), calls: CALLS })]
}

fn results<const N: usize>(all: [f32; N], to: &mut Answer) {
    to.refusal(0).fields(&all);
}

fn actual(x: &Operands, to: &mut Answer) {
    let [rate, expo, cent, v] = x.fields(0);
    results([Rates::Actual(Actual { rate, expo, cent }).apply(v)], to);
}

fn linear(x: &Operands, to: &mut Answer) {
    let [fact, offs, v] = x.fields(0);
    results([Rates::Linear(rates::Linear { fact, offs }).apply(v)], to);
}

fn actual_default(to: &mut Answer) {
    let Actual { rate, expo, cent } = Actual::const_default();
    results([rate, expo, cent], to);
}

fn expo_rates(kind: RatesType, x: &Operands, to: &mut Answer) {
    let [expo, max_rates, center_sens, v] = x.fields(0);
    results([ExpoRates::new(kind, expo, max_rates, center_sens).apply(v)], to);
}

fn map(x: &Operands, to: &mut Answer) {
    let linear: Linear<f32> = x.fields(0);
    results([linear.map(x.float(2))], to);
}

/// Of the two linear curves, a factor and an offset.
fn line(curve: impl Line, to: &mut Answer) {
    results(curve.numbers(), to);
}

fn from_four<T>(x: &Operands, new: fn(f32, f32, f32, f32) -> T) -> T {
    let [in_min, in_max, out_min, out_max] = x.fields(0);
    new(in_min, in_max, out_min, out_max)
}

/// The default after one of the setters.
fn set<T: Line>(x: &Operands, set: fn(&mut T, f32, f32, f32, f32)) -> T {
    let mut curve = T::first();
    let [in_min, in_max, out_min, out_max] = x.fields(0);
    set(&mut curve, in_min, in_max, out_min, out_max);
    curve
}

/// What both linear curves have.
trait Line {
    fn first() -> Self;
    fn numbers(&self) -> [f32; 2];
}

impl Line for rates::Linear {
    fn first() -> Self {
        rates::Linear::const_default()
    }
    fn numbers(&self) -> [f32; 2] {
        [self.fact, self.offs]
    }
}

impl Line for Linear<f32> {
    fn first() -> Self {
        Linear::const_default()
    }
    fn numbers(&self) -> [f32; 2] {
        let (factor, offset) = self.params();
        [factor, offset]
    }
}
