// filters/statistics.rs and what is added to it.
include!("../sources/filters/statistics.rs");

use crate::fields::{Fields, State};
use crate::refusals;

fields!([] Statistics<f32> { initialized alpha mean variance });

impl State for Statistics<f32> {
    fn refusal(&self) -> u32 {
        refusals::alpha(self.alpha)
    }
}
