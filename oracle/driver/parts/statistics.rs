//! filters/statistics.rs.

use crate::generator::Maker;
use crate::life::{lives, Life};
use crate::protocol::{Call, Calls};
use crate::states::{by_hand, call, construct, show, table};
use holsatus::filters::statistics::Statistics;
use holsatus::refusals;

const CALLS: &[Call<Statistics<f32>>] = &[
    Call {
        name: "statistics.new",
        form: "f",
        run: |s, x, to| construct(s, refusals::alpha(x.float(0)), to, || Statistics::new(x.float(0))),
    },
    Call { name: "statistics.add_sample", form: "f", run: |s, x, to| call(s, to, |s| s.add_sample(x.float(0))) },
    Call { name: "statistics.mean_var", form: "", run: |s, _, to| call(s, to, |s| s.mean_var()) },
    Call { name: "statistics.std_dev", form: "", run: |s, _, to| call(s, to, |s| s.std_dev()) },
    Call { name: "statistics.show", form: "", run: show },
    Call { name: "statistics.state", form: "bfff", run: by_hand },
];

pub fn tables() -> Vec<Box<dyn Calls>> {
    vec![table(CALLS)]
}

const LIFE: Life = Life {
    name: "statistics",
    begin: &[&[("new", "s")], &[("new", "s")], &[("state", "bsxa")]],
    often: &[("add_sample", "x"), ("add_sample", "x"), ("mean_var", ""), ("std_dev", "")],
    seldom: &[("show", "")],
    outlives_zero_sums: false,
};

pub fn lines() -> Box<Maker> {
    lives(&[&LIFE])
}
