//! Notches to make, and runs of samples for them.

use crate::protocol::LONGEST_RUN;
use crate::random::Random;
use crate::told::angle;
use crate::values::{float, odd_or};

/// What the operands of a notch, or of some in a row, have to do with those before them.
pub struct NotchOperands {
    /// The last notch's sampling time.
    dt: f32,
    /// What of the last run has not been given again.
    left: Vec<u32>,
}

impl NotchOperands {
    pub fn new() -> Self {
        NotchOperands { dt: 1.0, left: Vec::new() }
    }

    /// Centre, bandwidth, sampling time and t, some of them odd if so wanted.
    pub fn notch(&mut self, r: &mut Random, odd: bool) -> [u32; 4] {
        self.dt = (1.5 + r.unit() / 2.0) / r.one_of(&[1024.0, 2048.0, 4096.0, 8192.0]);
        let fb = self.bandwidth(r);
        let fc = self.center(r);
        let [fc, fb, dt] = some_odd(r, odd, [fc, fb, self.dt]);
        self.dt = dt;
        [fc, fb, dt, self.t(r, odd, fc)].map(f32::to_bits)
    }

    /// A new centre of the last notch, and its t.
    pub fn center_and_t(&mut self, r: &mut Random, odd: bool) -> [u32; 2] {
        let fc = self.center(r);
        let [fc] = some_odd(r, odd, [fc]);
        [fc, self.t(r, odd, fc)].map(f32::to_bits)
    }

    /// A tenth of half the sampling rate, or less.
    pub fn bandwidth(&self, r: &mut Random) -> f32 {
        (0.6 + r.unit() * 0.4) / 20.0 / self.dt
    }

    /// Below half the sampling rate.
    fn center(&self, r: &mut Random) -> f32 {
        (0.5 + r.unit() * 0.45) / 2.0 / self.dt
    }

    /// Mostly the Rust's own tangent of that centre; another that is not odd leaves the filter just as stable.
    fn t(&self, r: &mut Random, odd: bool, fc: f32) -> f32 {
        if odd && r.once_in(2) {
            f32::from_bits(odd_or(r, float))
        } else if r.once_in(8) {
            r.unit() * 4.0
        } else {
            tangent(angle(fc, self.dt))
        }
    }

    /// A room and samples.
    pub fn run(&mut self, r: &mut Random, odd: bool, to: &mut Vec<u32>) {
        let length = if odd && r.once_in(16) { LONGEST_RUN + 1 } else { how_many(r) };
        to.push(if odd && r.once_in(8) { no_room(r) } else { room(r, length) as u32 });
        self.left.clear();
        for _ in 0..length {
            let sample = if odd && r.once_in(8) { odd_or(r, float) } else { (r.unit() * 2.0).to_bits() };
            self.left.push(sample);
        }
        to.extend(&self.left);
    }

    /// The next samples of the last run, up to any place, with the room that they need or more.
    pub fn part(&mut self, r: &mut Random, to: &mut Vec<u32>) {
        let place = r.below(self.left.len() + 1);
        self.up_to(place, r, to);
    }

    /// The rest of the last run.
    pub fn rest(&mut self, r: &mut Random, to: &mut Vec<u32>) {
        self.up_to(self.left.len(), r, to);
    }

    fn up_to(&mut self, place: usize, r: &mut Random, to: &mut Vec<u32>) {
        let room = if r.once_in(4) { longer(r, place) } else { place };
        to.push(room as u32);
        to.extend(self.left.drain(..place));
    }
}

/// The f32 nearest to the tangent. Mostly it is f32's own too, which differs in the last place from one C library to the
/// other, as NaN's pattern does from one processor to the other: the lines of a seed must not.
fn tangent(x: f32) -> f32 {
    let t = f64::from(x).tan() as f32;
    if t.is_nan() {
        f32::from_bits(0x7fc0_0000)
    } else {
        t
    }
}

/// A biquad's a and b. An ordinary one is stable: what it answers stays finite.
pub fn biquad(r: &mut Random, odd: bool) -> [u32; 6] {
    let a0 = 4.5 + r.unit() * 4.0;
    let a2 = r.unit() * 0.9;
    let a1 = r.unit() * 0.9 * (1.0 + a2);
    let b = [(); 3].map(|_| a0 * r.unit());
    some_odd(r, odd, [a0, a0 * a1, a0 * a2, b[0], b[1], b[2]]).map(f32::to_bits)
}

/// The same numbers, or odd ones in the place of some.
fn some_odd<const N: usize>(r: &mut Random, odd: bool, numbers: [f32; N]) -> [f32; N] {
    numbers.map(|x| if odd && r.once_in(2) { f32::from_bits(odd_or(r, float)) } else { x })
}

/// How many samples: often few, at times none or as many as there can be.
fn how_many(r: &mut Random) -> usize {
    match r.below(8) {
        0 => r.below(2),
        1 => LONGEST_RUN - r.below(2),
        2 | 3 => r.below(LONGEST_RUN + 1),
        _ => 1 + r.below(8),
    }
}

/// The length of the second run: mostly that of the first, at times longer or, which is refused, shorter.
fn room(r: &mut Random, samples: usize) -> usize {
    match r.below(16) {
        0 | 1 => longer(r, samples),
        2 => r.below(samples + 1),
        3 => samples.saturating_sub(1),
        _ => samples.min(LONGEST_RUN),
    }
}

fn longer(r: &mut Random, samples: usize) -> usize {
    samples + r.below((LONGEST_RUN + 1).saturating_sub(samples).max(1))
}

/// More than any room.
fn no_room(r: &mut Random) -> u32 {
    r.one_of(&[LONGEST_RUN as u32 + 1, 0x100, 0x0100_0000, 0x8000_0001, 0xffff_ffff])
}
