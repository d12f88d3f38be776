//! The simple filters of filters/mod.rs.

mod lines;

use crate::protocol::{Call, Calls};
use crate::states::{by_hand, call, construct, show, table};
use holsatus::filters::{
    Complementary, IntegratingComplementary, IntegratingHighpass, Lowpass, NthOrderLowpass, OpenHighpass, SlewRate,
    Window,
};
use holsatus::refusals;
pub use lines::lines;

/// The calls of a filter that is made of tau and dt: its name, its type, its setter of tau, the operands of its update
/// with their form, and the form of its fields.
macro_rules! made_of_tau_and_dt {
    ($name:literal, $type:ty, $set_tau:ident, update($($x:literal)*) $update:literal, $fields:literal) => {{
        const CALLS: &[Call<$type>] = &[
            Call {
                name: concat!($name, ".new"),
                form: "ff",
                run: |s, x, to| construct(s, 0, to, || <$type>::new(x.float(0), x.float(1))),
            },
            Call {
                name: concat!($name, ".set_dt"),
                form: "f",
                run: |s, x, to| call(s, to, |f| f.set_dt(x.float(0))),
            },
            Call {
                name: concat!($name, ".", stringify!($set_tau)),
                form: "f",
                run: |s, x, to| call(s, to, |f| f.$set_tau(x.float(0))),
            },
            Call {
                name: concat!($name, ".update"),
                form: $update,
                run: |s, x, to| call(s, to, |f| f.update($(x.float($x)),*)),
            },
            Call { name: concat!($name, ".show"), form: "", run: show },
            Call { name: concat!($name, ".state"), form: $fields, run: by_hand },
        ];
        table(CALLS)
    }};
}

const MOVING_AVERAGE: &[Call<Window>] = &[
    Call {
        name: "moving_average.new",
        form: "n",
        run: |s, x, to| construct(s, refusals::window(x.number(0), 0), to, || Window::new(x.number(0))),
    },
    Call {
        name: "moving_average.new_with_value",
        form: "nf",
        run: |s, x, to| {
            construct(s, refusals::window(x.number(0), 0), to, || Window::new_with_value(x.number(0), x.float(1)))
        },
    },
    Call { name: "moving_average.update", form: "f", run: |s, x, to| call(s, to, |f| f.update(x.float(0))) },
    Call { name: "moving_average.show", form: "", run: show },
    Call { name: "moving_average.state", form: "nnffffffffffffffff", run: by_hand },
];

const SLEW_RATE: &[Call<SlewRate<f32>>] = &[
    Call {
        name: "slew_rate.new",
        form: "ff",
        run: |s, x, to| construct(s, refusals::slew_limit(x.float(0)), to, || SlewRate::new(x.float(0), x.float(1))),
    },
    Call { name: "slew_rate.set_dt", form: "f", run: |s, x, to| call(s, to, |f| f.set_dt(x.float(0))) },
    Call { name: "slew_rate.update", form: "f", run: |s, x, to| call(s, to, |f| f.update(x.float(0))) },
    Call { name: "slew_rate.show", form: "", run: show },
    Call { name: "slew_rate.state", form: "fff", run: by_hand },
];

pub fn tables() -> Vec<Box<dyn Calls>> {
    vec![
        made_of_tau_and_dt!("lowpass", Lowpass<f32>, set_tau, update(0) "f", "fffff"),
        made_of_tau_and_dt!("lowpass2", NthOrderLowpass<f32, 2>, configure, update(0) "f", "ffffffffff"),
        made_of_tau_and_dt!("highpass", OpenHighpass, set_tau, update(0) "f", "fffff"),
        made_of_tau_and_dt!("complementary", Complementary<f32>, set_tau, update(0 1) "ff", "ffffffffff"),
        made_of_tau_and_dt!("integrating_highpass", IntegratingHighpass<f32>, set_tau, update(0) "f", "ffff"),
        made_of_tau_and_dt!(
            "integrating_complementary", IntegratingComplementary<f32>, set_tau, update(0 1) "ff", "ffff"
        ),
        table(MOVING_AVERAGE),
        table(SLEW_RATE),
    ]
}
