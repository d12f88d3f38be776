//! The notch of filters/mod.rs, and three of them in a row.

mod lines;

use crate::check::same_words;
use crate::protocol::{written, Answer, Call, Calls, Operands};
use crate::states::{by_hand, call, construct, show, table};
use crate::told::{with_tangent, Told};
use holsatus::fields::recast;
use holsatus::filters::{Notch, NotchFilter};
use holsatus::{notch_form, refusals};
pub use lines::lines;
use num_traits::Float;

const NOTCH: &[Call<Notch>] = &[
    Call { name: "notch.new", form: "ffff", run: |s, x, to| construct(s, 0, to, || new(x.fields(0))) },
    Call {
        name: "notch.set_freq_center",
        form: "ff",
        run: |s, x, to| call(s, to, |n| set_freq_center(n, x.float(0), x.float(1))),
    },
    Call {
        name: "notch.set_freq_bandwidth",
        form: "f",
        run: |s, x, to| call(s, to, |n| set_freq_bandwidth(n, x.float(0))),
    },
    Call { name: "notch.update", form: "f", run: |s, x, to| call(s, to, |n| n.filter.update(x.float(0))) },
    Call { name: "notch.show", form: "", run: show },
    Call { name: "notch.state", form: notch_form!(), run: by_hand },
];

const NOTCHES: &[Call<[Notch; 3]>] = &[
    Call {
        name: "notches.new",
        form: "ffffffffffff",
        run: |s, x, to| construct(s, 0, to, || x.fields::<[_; 3]>(0).map(new)),
    },
    Call { name: "notches.run", form: "rf~", run },
    Call { name: "notches.show", form: "", run: show },
    Call { name: "notches.state", form: concat!(notch_form!(), notch_form!(), notch_form!()), run: by_hand },
];

pub fn tables() -> Vec<Box<dyn Calls>> {
    vec![table(NOTCH), table(NOTCHES)]
}

fn new([fc, fb, dt, t]: [f32; 4]) -> Notch {
    made_with(t, || NotchFilter::new(Told(fc), Told(fb), Told(dt)), || NotchFilter::new(fc, fb, dt))
}

fn set_freq_center(notch: &mut Notch, fc: f32, t: f32) {
    let filter = notch.filter;
    *notch = made_with(t, || with_center(recast(&filter), Told(fc)), || with_center(filter, fc));
}

fn with_center<F: Float>(mut filter: NotchFilter<F>, fc: F) -> NotchFilter<F> {
    filter.set_freq_center(fc);
    filter
}

/// The tangent is the stored one.
fn set_freq_bandwidth(notch: &mut Notch, fb: f32) {
    let Notch { filter, t } = *notch;
    *notch = made_with(t, || with_bandwidth(recast(&filter), Told(fb)), || with_bandwidth(filter, fb));
}

fn with_bandwidth<F: Float>(mut filter: NotchFilter<F>, fb: F) -> NotchFilter<F> {
    filter.set_freq_bandwidth(fb);
    filter
}

/// What `run` makes where the tangent is t. Where that is the Rust's own, `plain`, the same on plain f32, is run too.
fn made_with(t: f32, run: impl FnOnce() -> NotchFilter<Told>, plain: impl FnOnce() -> NotchFilter<f32>) -> Notch {
    let (made, angle) = with_tangent(t, run);
    let filter = recast(&made);
    if written(t) == written(angle.tan()) {
        same_words("NotchFilter", &filter, &plain());
    }
    Notch { filter, t }
}

/// What stands in the second run before the call: 42.
const UNWRITTEN: f32 = 42.0;

/// The second run is shown as it is after the call, refused or not.
fn run(notches: &mut [Notch; 3], x: &Operands, to: &mut Answer) {
    let samples: Vec<f32> = (1..x.count()).map(|i| x.float(i)).collect();
    let mut second = vec![UNWRITTEN; x.number(0) as usize];
    let refusal = refusals::room(samples.len(), second.len());
    if refusal == 0 {
        for (y, sample) in second.iter_mut().zip(samples) {
            *y = in_a_row(notches, sample);
        }
    }
    to.refusal(refusal);
    for y in second {
        to.float(y);
    }
}

fn in_a_row([first, second, third]: &mut [Notch; 3], sample: f32) -> f32 {
    third.filter.update(second.filter.update(first.filter.update(sample)))
}
