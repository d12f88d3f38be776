// filters/rate_pid.rs and what is added to it.
include!("../sources/filters/rate_pid.rs");

use crate::fields::{Fields, State};

fields!([] PidTerms { p_out i_out dr_out dm_out });
// `max_integral` is the same in every controller.
fields!([] RatePid {
    kp ki kd integral prev_meas prev_ref terms dt integral_en lowpass d_lowpass d_slew
} .. RatePid::new(0.0, 0.0, 0.0, 0.0, 0.0));

/// The form of these fields in the protocol.
#[macro_export]
macro_rules! rate_pid_form {
    () => {
        "fffffffffffbfffffffffffffffbfff"
    };
}

impl State for RatePid {
    fn refusal(&self) -> u32 {
        self.d_slew.map_or(0, |slew| slew.refusal())
    }
}
