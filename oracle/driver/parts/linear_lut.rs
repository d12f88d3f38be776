//! filters/linear_lut.rs.

mod lines;

use crate::protocol::{Answer, Call, Calls, Operands, Table};
use holsatus::filters::linear_lut::LinearLut;
use holsatus::refusals;
pub use lines::lines;

const CALLS: &[Call<()>] = &[Call { name: "linear_lut", form: "ff*", run: |_, x, to| linear_lut(x, to) }];

pub fn tables() -> Vec<Box<dyn Calls>> {
    vec![Box::new(Table { state: (), calls: CALLS })]
}

fn linear_lut(x: &Operands, to: &mut Answer) {
    let run: Vec<f32> = (1..x.count()).map(|i| x.float(i)).collect();
    let refusal = refusals::points(run.len());
    let y = if refusal == 0 { get(&run, x.float(0)) } else { 0.0 };
    to.refusal(refusal).float(y);
}

/// A function for each number of points below 120, by its tens and its ones. A line has room for 110 points.
macro_rules! by_points {
    ($($tens:literal)*) => {
        [$([
            get_of::<{ $tens }>, get_of::<{ $tens + 1 }>, get_of::<{ $tens + 2 }>, get_of::<{ $tens + 3 }>,
            get_of::<{ $tens + 4 }>, get_of::<{ $tens + 5 }>, get_of::<{ $tens + 6 }>, get_of::<{ $tens + 7 }>,
            get_of::<{ $tens + 8 }>, get_of::<{ $tens + 9 }>,
        ]),*]
    };
}

/// What the table of these points has at x.
fn get(run: &[f32], x: f32) -> f32 {
    const GET: [[fn(&[f32], f32) -> f32; 10]; 12] = by_points!(0 10 20 30 40 50 60 70 80 90 100 110);
    let points = run.len() / 2;
    GET[points / 10][points % 10](run, x)
}

fn get_of<const N: usize>(run: &[f32], x: f32) -> f32 {
    let points = std::array::from_fn(|i| [run[2 * i], run[2 * i + 1]]);
    LinearLut::<f32, N> { points }.get(x)
}
