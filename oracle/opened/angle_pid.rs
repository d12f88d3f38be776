// filters/angle_pid.rs and what is added to it.
include!("../sources/filters/angle_pid.rs");

use crate::fields::{Fields, State};
use crate::refusals;

fields!([F: Float + Fields] Wrapping<F> { min max });
fields!([F: Float + Fields] OutputLimit<F> { min max });
fields!([F: Float + Fields] Pid<F> {
    kp ki kd ts integral integral_en prev_error wrapping output_limit anti_windup lp_filter
});

fields!([] PidConfig<f32> { kp ki kd ideal wrapping output_limit anti_windup lp_filter });

impl<F: Fields> Fields for AntiWindup<F> {
    fn read(words: &mut dyn Iterator<Item = u32>) -> Self {
        AntiWindup::Conditional(Fields::read(words))
    }
    fn write(&self, to: &mut dyn FnMut(u32)) {
        let AntiWindup::Conditional(range) = self;
        range.write(to);
    }
}

impl State for Pid<f32> {
    fn refusal(&self) -> u32 {
        refusals::first([
            self.wrapping.map_or(0, |range| refusals::range(range.min, range.max)),
            self.output_limit.map_or(0, |range| refusals::range(range.min, range.max)),
            self.anti_windup.map_or(0, |AntiWindup::Conditional((min, max))| refusals::range(min, max)),
            self.lp_filter.map_or(0, |filter| refusals::tau(filter.tau)),
        ])
    }
}
