//! Time constants and sampling times. Their sum is often zero, where a low pass has a rule of its own (request W4).

use crate::random::Random;
use crate::values::{float, near, odd_or, positive};

/// Which sums of zero an episode has beside those of odd operands.
#[derive(Clone, Copy, PartialEq)]
pub enum ZeroSums {
    None,
    /// Of a number and its negative. Two zeros would leave a controller with NaN, as it divides by its sampling time.
    Opposite,
    /// Of two zeros too, and more of all.
    All,
}

/// The time constant and the sampling time of one state.
pub struct Times {
    sums: ZeroSums,
    tau: Option<f32>,
    dt: Option<f32>,
}

impl Times {
    pub fn new(sums: ZeroSums) -> Self {
        Times { sums, tau: None, dt: None }
    }

    /// 0 too. Below zero, where the sampling time to come makes the sum zero.
    pub fn tau(&mut self, r: &mut Random) -> f32 {
        let tau = match self.dt {
            Some(dt) if self.zero_sum(r, dt) => negative(r, dt),
            None if self.below_zero(r) => -sampling_time(r),
            _ if r.once_in(8) => r.one_of(&[0.0, -0.0]),
            _ => positive(r, -10, 0),
        };
        self.tau = Some(tau);
        tau
    }

    /// The same where the state may have one already, which it then keeps.
    pub fn first_tau(&mut self, r: &mut Random) -> f32 {
        let kept = self.tau;
        let tau = self.tau(r);
        self.tau = kept.or(self.tau);
        tau
    }

    pub fn tau_above_zero(&mut self, r: &mut Random) -> f32 {
        let tau = match self.dt {
            Some(dt) if dt < 0.0 => -dt,
            _ => positive(r, -10, 0),
        };
        self.tau = Some(tau);
        tau
    }

    /// Below zero, where the time constant that there is, or one to come, makes the sum zero.
    pub fn dt(&mut self, r: &mut Random) -> f32 {
        let dt = match self.tau {
            Some(tau) if self.zero_sum(r, tau) => {
                // A rate controller's damping filter has ten times the time constant.
                let tau = if r.once_in(8) { tau * 10.0 } else { tau };
                negative(r, tau)
            }
            None if self.below_zero(r) => -sampling_time(r),
            _ => sampling_time(r),
        };
        self.dt = Some(dt);
        dt
    }

    /// Mostly the last ones again, of a second filter beside the first; by hand it may have its own.
    pub fn tau_again(&self, r: &mut Random) -> f32 {
        again(r, self.tau, |r| positive(r, -10, 0))
    }

    pub fn dt_again(&self, r: &mut Random) -> f32 {
        again(r, self.dt, sampling_time)
    }

    /// Anything, or what makes the sum nearly zero.
    pub fn odd_tau(&mut self, r: &mut Random) -> u32 {
        let tau = odd_beside(r, self.dt);
        self.tau = Some(f32::from_bits(tau));
        tau
    }

    pub fn odd_dt(&mut self, r: &mut Random) -> u32 {
        let dt = odd_beside(r, self.tau);
        self.dt = Some(f32::from_bits(dt));
        dt
    }

    /// Whether a number is to make the sum with this one zero. Beside one below zero any other lets most filters grow
    /// without end.
    fn zero_sum(&self, r: &mut Random, other: f32) -> bool {
        match self.sums {
            ZeroSums::None => false,
            ZeroSums::Opposite => other < 0.0 || other > 0.0 && r.once_in(8),
            ZeroSums::All => other < 0.0 || r.once_in(5),
        }
    }

    /// Whether the first of the two is to be below zero.
    fn below_zero(&self, r: &mut Random) -> bool {
        self.sums != ZeroSums::None && r.once_in(8)
    }
}

/// A sampling time that no time constant has to do with.
pub fn sampling_time(r: &mut Random) -> f32 {
    if r.once_in(8) {
        r.one_of(&[0.25, 0.5, 1.0])
    } else {
        positive(r, -13, -3)
    }
}

fn again(r: &mut Random, last: Option<f32>, another: impl FnOnce(&mut Random) -> f32) -> f32 {
    match last {
        Some(last) if !r.once_in(4) => last,
        _ => another(r),
    }
}

/// Of zero, a zero of either sign.
fn negative(r: &mut Random, x: f32) -> f32 {
    if x == 0.0 {
        r.one_of(&[0.0, -0.0])
    } else {
        -x
    }
}

fn odd_beside(r: &mut Random, other: Option<f32>) -> u32 {
    match other {
        Some(other) if r.once_in(2) => near(r, (-other).to_bits()),
        _ => odd_or(r, float),
    }
}
