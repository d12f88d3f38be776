//! Runs of calls on the same settings and cells, timed in turn. Their answers must be the same numbers.

use std::hint::black_box;
use std::process::exit;
use std::time::Instant;

/// Settings, cells, answers.
pub type Run = fn(&[f32], &[f32], &mut [f32]);

/// A function of the project's library: a slice is its place and its length on the way across.
#[allow(dead_code)] // The root's functions take numbers alone.
pub type Linked = unsafe extern "C" fn(*const f32, usize, *const f32, usize, *mut f32, usize);

#[allow(dead_code)]
pub fn call(linked: Linked, s: &[f32], cells: &[f32], out: &mut [f32]) {
    // Sound because both sides hold to the lengths.
    unsafe { linked(s.as_ptr(), s.len(), cells.as_ptr(), cells.len(), out.as_mut_ptr(), out.len()) }
}

/// So many calls are made in a run.
pub const CALLS: usize = 4096;
const TURNS: usize = 2000;

/// Numbers from -0.5 to 0.5 from a small generator, always the same.
pub fn noise() -> impl FnMut() -> f32 {
    let mut seed = 1u32;
    move || {
        seed = seed.wrapping_mul(1664525).wrapping_add(1013904223);
        (seed >> 8) as f32 / 16777216.0 - 0.5
    }
}

/// `cells` has what all `CALLS` calls of a run read, and `what` says what one is. The first run is what the others are
/// measured by.
pub fn compare(what: &str, settings: &[f32], cells: &[f32], runs: &[(&str, Run)]) {
    let mut outs = vec![vec![0.0f32; CALLS]; runs.len()];
    let mut times: Vec<Vec<f64>> = vec![Vec::new(); runs.len()];
    for _ in 0..TURNS {
        for (k, (_, run)) in runs.iter().enumerate() {
            let start = Instant::now();
            run(black_box(settings), black_box(cells), black_box(&mut outs[k]));
            times[k].push(start.elapsed().as_nanos() as f64 / CALLS as f64);
        }
    }
    let bits = |v: &Vec<f32>| v.iter().map(|x| x.to_bits()).collect::<Vec<u32>>();
    if outs.iter().any(|o| bits(o) != bits(&outs[0])) {
        println!("the answers differ");
        exit(1);
    }
    times.iter_mut().for_each(|t| t.sort_by(f64::total_cmp));
    let middle = |k: usize| times[k][TURNS / 2];
    for (k, (name, _)) in runs.iter().enumerate() {
        let ratio = middle(k) / middle(0);
        let (time, shortest) = (middle(k), times[k][0]);
        println!("{name:16} {time:6.2} ns {what} (middle of {TURNS} turns; shortest {shortest:.2}), {ratio:.2} times the {}'s", runs[0].0);
    }
}
