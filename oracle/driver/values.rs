//! Floats, by their bits, of the kinds on which implementations differ.

use crate::random::Random;

const SIGN: u32 = 0x8000_0000;
const INFINITY: u32 = 0x7f80_0000;
const SMALLEST_NORMAL: u32 = 0x0080_0000;

const SPECIAL: [u32; 12] = [
    0,
    1,
    SMALLEST_NORMAL - 1,
    SMALLEST_NORMAL,
    0x3f00_0000, // 0.5
    0x3f80_0000, // 1
    0x4280_0000, // 64
    0x4300_0000, // 128
    0x4302_0000, // 130
    0x4049_0fdb, // pi
    INFINITY - 1,
    INFINITY,
];

/// Any float: special ones often, any pattern, moderate and small round numbers.
pub fn float(r: &mut Random) -> u32 {
    match r.below(8) {
        0 | 1 => special(r),
        2 => power_of_two(r),
        3 | 4 => r.bits() as u32,
        5 => (r.unit() * 10.0).to_bits(),
        6 => (r.unit() * 1000.0).to_bits(),
        _ => dyadic(r),
    }
}

/// That many floats, of which one is at times equal to another, next to it or its negative.
pub fn floats<const N: usize>(r: &mut Random) -> [u32; N] {
    let mut all = [0; N];
    for x in &mut all {
        *x = float(r);
    }
    if N > 1 && r.once_in(4) {
        let other = all[r.below(N)];
        all[r.below(N)] = near(r, other);
    }
    all
}

/// The number itself, a neighbour of it, or its negative.
pub fn near(r: &mut Random, x: u32) -> u32 {
    match r.below(4) {
        0 => x,
        1 => x.wrapping_add(1),
        2 => x.wrapping_sub(1),
        _ => x ^ SIGN,
    }
}

/// Often a NaN, a small whole number or an infinity, else what `other` makes.
pub fn odd_or(r: &mut Random, other: impl FnOnce(&mut Random) -> u32) -> u32 {
    if r.once_in(3) {
        nan(r)
    } else if r.once_in(2) {
        r.one_of(&[0.0, -0.0, 1.0, -1.0, 2.0, f32::INFINITY, f32::NEG_INFINITY]).to_bits()
    } else {
        other(r)
    }
}

/// A multiple of an eighth from -16 to 16.
pub fn dyadic(r: &mut Random) -> u32 {
    ((r.below(257) as f32 - 128.0) / 8.0).to_bits()
}

/// A number from 2^low to 2^high.
pub fn positive(r: &mut Random, low: i32, high: i32) -> f32 {
    (1.5 + r.unit() / 2.0) * 2f32.powi(low + r.below((high - low) as usize) as i32)
}

/// A NaN: quiet or signalling, of either sign, with any payload.
pub fn nan(r: &mut Random) -> u32 {
    let payload = match r.below(4) {
        0 => 0x0040_0000,
        1 => 1,
        2 => SMALLEST_NORMAL - 1,
        _ => (r.bits() as u32 & (SMALLEST_NORMAL - 1)) | 1,
    };
    signed(r, INFINITY | payload)
}

fn special(r: &mut Random) -> u32 {
    if r.once_in(6) {
        return nan(r);
    }
    let x = r.one_of(&SPECIAL);
    // One has neighbours on both sides at different distances, so it is often one of them.
    let x = if x == 0x3f80_0000 { x - 1 + r.below(3) as u32 } else { x };
    signed(r, x)
}

/// A power of two or a neighbour of one, of either sign; the lowest are subnormal.
fn power_of_two(r: &mut Random) -> u32 {
    let power = if r.once_in(8) { 1 << r.below(23) } else { (r.below(254) as u32 + 1) << 23 };
    let x = power - 1 + r.below(3) as u32;
    signed(r, x)
}

fn signed(r: &mut Random, x: u32) -> u32 {
    if r.once_in(2) {
        x
    } else {
        x | SIGN
    }
}
