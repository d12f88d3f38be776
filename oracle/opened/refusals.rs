//! Rows of document 01's table of refusals, and document 02's 25, each as a function of the numbers that it judges: its
//! number, or 0. The same rows judge a call's operands and the numbers of a state built by hand.

/// The first refusal of some that are checked in order.
pub fn first<const N: usize>(checks: [u32; N]) -> u32 {
    checks.into_iter().find(|&number| number != 0).unwrap_or(0)
}

fn unless(holds: bool, number: u32) -> u32 {
    if holds {
        0
    } else {
        number
    }
}

pub fn range(min: f32, max: f32) -> u32 {
    unless(min < max, 1)
}

pub fn tau(tau: f32) -> u32 {
    unless(tau > 0.0, 2)
}

pub fn slew_limit(limit: f32) -> u32 {
    unless(!limit.is_nan() && !limit.is_sign_negative(), 3)
}

pub fn alpha(alpha: f32) -> u32 {
    unless(alpha > 0.0 && alpha <= 1.0, 4)
}

/// Of a run of so many numbers, two a point.
pub fn points(run: usize) -> u32 {
    unless(run % 2 == 0 && run != 2, 5)
}

/// Of a motor's commands or of its thrusts.
pub fn motor(min: f32, max: f32) -> u32 {
    unless(min <= max, 7)
}

/// Of a row of a frame's columns, the sum of its squares.
pub fn row_sum(sum: f32) -> u32 {
    unless(sum > 0.0 && sum < f32::INFINITY, 17)
}

pub fn window(length: u32, head: u32) -> u32 {
    unless((1..=16).contains(&length) && head <= length, 18)
}

/// Document 02's own: of a run of so many samples, and the length of the run that their answers are written to.
pub fn room(samples: usize, room: usize) -> u32 {
    unless(room >= samples, 25)
}
