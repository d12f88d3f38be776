//! What the runs of a rate controller are given.

use crate::timing::{noise, CALLS};

pub const SETTINGS: [f32; 5] = [0.3, 0.5, 0.02, 0.01, 0.004];

/// A flight-like signal, three cells an update; now and then out of the calm range, so that both ways of the integral
/// are taken.
pub fn cells() -> Vec<f32> {
    let mut noise = noise();
    (0..CALLS * 3).map(|i| (i as f32 / 900.0).sin() * 1.05 + noise() * 0.1).collect()
}
