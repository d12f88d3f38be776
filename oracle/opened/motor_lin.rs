// filters/motor_lin.rs and what is added to it.
include!("../sources/filters/motor_lin.rs");

use crate::fields::{Fields, State};
use crate::refusals;

fields!([] MotorLin<f32> { a b c_min c_max f_min f_max });

impl State for MotorLin<f32> {
    fn refusal(&self) -> u32 {
        refusals::first([refusals::motor(self.c_min, self.c_max), refusals::motor(self.f_min, self.f_max)])
    }
}
