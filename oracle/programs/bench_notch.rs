//! The time of one sample through one notch, and through three in a row: the Rust's and the project's.

mod timing;

use driver::told::angle;
use holsatus::filters::NotchFilter;
use std::f32::consts::PI;
use std::hint::black_box;
use timing::{call, compare, noise, CALLS};

extern "C" {
    fn plumradek_notch(s: *const f32, ns: usize, samples: *const f32, n: usize, out: *mut f32, no: usize);
    fn plumradek_notches(s: *const f32, ns: usize, samples: *const f32, n: usize, out: *mut f32, no: usize);
}

const DT: f32 = 0.001;
const BANDWIDTH: f32 = 20.0;
/// The first is where the vibration is.
const CENTERS: [f32; 3] = [120.0, 180.0, 240.0];

/// For each notch its centre, its bandwidth, the sampling time, and the t that the Rust works out itself.
fn settings() -> Vec<f32> {
    // The compiler's own tangent of a number that it knows can differ in the last place.
    CENTERS.iter().flat_map(|&fc| [fc, BANDWIDTH, DT, black_box(angle(fc, DT)).tan()]).collect()
}

/// A slow wave, the vibration, and noise.
fn samples() -> Vec<f32> {
    let mut noise = noise();
    let vibration = |i: usize| (i as f32 * 2.0 * PI * CENTERS[0] * DT).sin();
    (0..CALLS).map(|i| (i as f32 / 300.0).sin() + vibration(i) * 0.3 + noise() * 0.1).collect()
}

#[inline(never)]
fn rust<const NOTCHES: usize>(s: &[f32], samples: &[f32], out: &mut [f32]) {
    let mut notches: [NotchFilter<f32>; NOTCHES] =
        std::array::from_fn(|i| NotchFilter::new(s[4 * i], s[4 * i + 1], s[4 * i + 2]));
    for (y, sample) in out.iter_mut().zip(samples) {
        *y = notches.iter_mut().fold(*sample, |x, notch| notch.update(x));
    }
}

fn main() {
    let (settings, samples) = (settings(), samples());
    println!("1 notch");
    compare(
        "a sample",
        &settings[..4],
        &samples,
        &[("Rust", rust::<1>), ("ours", |s, samples, out| call(plumradek_notch, s, samples, out))],
    );
    println!("3 notches");
    compare(
        "a sample",
        &settings,
        &samples,
        &[("Rust", rust::<3>), ("ours", |s, samples, out| call(plumradek_notches, s, samples, out))],
    );
}
