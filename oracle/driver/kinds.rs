//! The kinds of operands in lines on states, each known by a letter: ordinary ones, and odd ones, which are at an edge,
//! refused, or any at all.
//!
//! | letter | operand |
//! |---|---|
//! | b | a bool |
//! | x | a signal |
//! | y | a signal that stays about a level for a while, is often near 1 and at times exactly 1 |
//! | e | an error, often some steps away from the last range of kind w |
//! | t | a time constant, 0 too; at times the negative of the last of kind d |
//! | T | the same for a lane, which keeps the first where it is open |
//! | o | the last time constant again, of a second filter; at times another |
//! | p | a time constant above 0; where the last of kind d is below 0, its negative |
//! | d | a sampling time; at times the negative of the last time constant |
//! | j | the last of kind d again, of a second filter; at times another |
//! | i | a sampling time that no time constant has to do with |
//! | a | a weight from 0 to 1 |
//! | s | a weight above 0 |
//! | g | a gain |
//! | l | a slew limit or a motor's factor |
//! | c | a motor's command or thrust |
//! | n | a window's length |
//! | h | a window's length and its head |
//! | r | a range: its low and its high end |
//! | w | a range to wrap into |
//! | m | a motor's limits: the low and the high one |
//! | L | the lane |
//! | f | a notch: its centre, its bandwidth, its sampling time and its t, mostly its tangent |
//! | k | a new centre for the last of kind f, and its t |
//! | v | a new bandwidth for it |
//! | q | a biquad: its a and its b |
//! | u | a room and a run of samples |
//! | U | a part of the last of kind u, from where the part before it ended, and its room |
//! | V | the rest of it |
//! | = | the operands of the episode's first line again |

use crate::notches::{biquad, NotchOperands};
use crate::random::Random;
use crate::ranges::{refused_bounds, steps};
use crate::times::{sampling_time, Times, ZeroSums};
use crate::values::{dyadic, float, odd_or, positive};
use std::f32::consts::PI;

/// What the operands of one state have to do with those before them.
pub struct Memory {
    lane: u32,
    /// The last range to wrap into.
    range: (f32, f32),
    /// What signals stay about.
    level: f32,
    times: Times,
    notches: NotchOperands,
    /// The operands of the episode's first line.
    first: Vec<u32>,
}

impl Memory {
    pub fn new(lane: u32, sums: ZeroSums) -> Self {
        let (times, notches) = (Times::new(sums), NotchOperands::new());
        Memory { lane, range: (-1.0, 1.0), level: 0.0, times, notches, first: Vec::new() }
    }

    /// All but the lane, for a new episode with these sums of zero.
    pub fn forget(&mut self, sums: ZeroSums) {
        *self = Memory::new(self.lane, sums);
    }

    /// What kind = will be.
    pub fn keep_first(&mut self, operands: &[u32]) {
        self.first = operands.to_vec();
    }

    pub fn ordinary(&mut self, r: &mut Random, kind: u8, to: &mut Vec<u32>) {
        let x = match kind {
            b'x' => r.unit() * 2.0,
            b't' => self.times.tau(r),
            b'T' => self.times.first_tau(r),
            b'o' => self.times.tau_again(r),
            b'p' => self.times.tau_above_zero(r),
            b'd' => self.times.dt(r),
            b'j' => self.times.dt_again(r),
            b'i' => sampling_time(r),
            b'a' => r.unit().abs(),
            b's' if r.once_in(16) => 1.0,
            b's' => positive(r, -8, 0),
            b'g' if r.once_in(2) => r.one_of(&[0.0, 0.5, 1.0, 2.0, -1.0]),
            b'g' => positive(r, -6, 3),
            b'l' => positive(r, -4, 6),
            b'c' => r.unit() * 0.75 + 0.5,
            b'y' => self.about_level(r),
            b'e' => self.error(r),
            b'v' => self.notches.bandwidth(r),
            b'b' => return to.push(r.below(2) as u32),
            b'n' => return to.push(1 + r.below(16) as u32),
            b'h' => {
                let length = 1 + r.below(16);
                return to.extend([length as u32, r.below(length + 1) as u32]);
            }
            b'r' | b'w' => {
                let range = r.one_of(&[(-1.0, 1.0), (0.0, 1.0), (-2.0, 0.5), (-PI, PI), (-180.0, 180.0)]);
                return self.range(kind, range, to);
            }
            b'm' => return to.extend([r.unit().abs() / 4.0, 1.0 - r.unit().abs() / 4.0].map(f32::to_bits)),
            b'L' => return to.push(self.lane),
            b'f' => return to.extend(self.notches.notch(r, false)),
            b'k' => return to.extend(self.notches.center_and_t(r, false)),
            b'q' => return to.extend(biquad(r, false)),
            b'u' => return self.notches.run(r, false, to),
            b'U' => return self.notches.part(r, to),
            b'V' => return self.notches.rest(r, to),
            b'=' => return to.extend(&self.first),
            _ => panic!("no kind {}", kind as char),
        };
        to.push(x.to_bits());
    }

    pub fn odd(&mut self, r: &mut Random, kind: u8, to: &mut Vec<u32>) {
        match kind {
            b'b' | b'U' | b'V' | b'=' => self.ordinary(r, kind, to),
            b'n' => to.push(r.one_of(&[0, 1, 16, 17, 18, 0x8000_0001, 0xffff_ffff])),
            b'h' => {
                let length: u32 = r.one_of(&[0, 1, 2, 15, 16, 17, 0x1_0001, 0xffff_ffff]);
                to.extend([
                    length,
                    r.one_of(&[0, length.wrapping_sub(1), length, length.wrapping_add(1), 0xffff_ffff]),
                ]);
            }
            b'r' | b'w' | b'm' => {
                let range = refused_bounds(r);
                self.range(kind, range, to);
            }
            b'L' => to.push(r.one_of(&[8, 9, 255, 0x0100_0000, 0xffff_ffff])),
            b'f' => to.extend(self.notches.notch(r, true)),
            b'k' => to.extend(self.notches.center_and_t(r, true)),
            b'q' => to.extend(biquad(r, true)),
            b'u' => self.notches.run(r, true, to),
            b's' => to.push(odd_or(r, |r| beside(r, 1.0).to_bits())),
            b't' | b'T' | b'p' => to.push(self.times.odd_tau(r)),
            b'd' => to.push(self.times.odd_dt(r)),
            _ => to.push(odd_or(r, float)),
        }
    }

    fn range(&mut self, kind: u8, range: (f32, f32), to: &mut Vec<u32>) {
        if kind == b'w' {
            self.range = range;
        }
        to.extend([range.0, range.1].map(f32::to_bits));
    }

    fn about_level(&mut self, r: &mut Random) -> f32 {
        if r.once_in(50) {
            self.level = r.unit() * 1.5;
        }
        match r.below(8) {
            0 => r.unit() * 2.0,
            1 => beside(r, 1.0),
            _ => self.level + r.unit() / 8.0,
        }
    }

    /// Where the gains and the sampling time are round, so is often what comes of a round error: it meets the ends of
    /// the ranges exactly.
    fn error(&mut self, r: &mut Random) -> f32 {
        let (min, max) = self.range;
        match r.below(9) {
            0..=2 => r.unit() * 2.0,
            3 => f32::from_bits(dyadic(r)),
            4 => beside(r, min),
            5 => beside(r, max),
            6 => min + r.unit() * 4.0 * (max - min),
            7 => min - steps(r) * (max - min),
            _ => max + steps(r) * (max - min),
        }
    }
}

/// The number itself, a neighbour of it, or its negative.
fn beside(r: &mut Random, x: f32) -> f32 {
    r.one_of(&[x, x.next_up(), x.next_down(), -x])
}
