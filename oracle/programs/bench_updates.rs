//! The time of one update of a rate controller: the Rust's, and that of the project's libraries by value and in place; where
//! `oracle/before` has built those of an earlier checkout, theirs too.

mod flight;
mod timing;

use flight::{cells, SETTINGS};
use holsatus::filters::rate_pid::RatePid;
use timing::{call, compare, Run};

extern "C" {
    fn plumradek_updates(s: *const f32, ns: usize, cells: *const f32, n: usize, out: *mut f32, no: usize);
    fn plumradek_updates_in_place(s: *const f32, ns: usize, cells: *const f32, n: usize, out: *mut f32, no: usize);
}

#[cfg(before)]
extern "C" {
    fn before_updates(s: *const f32, ns: usize, cells: *const f32, n: usize, out: *mut f32, no: usize);
    fn before_updates_in_place(s: *const f32, ns: usize, cells: *const f32, n: usize, out: *mut f32, no: usize);
}

#[inline(never)]
fn rust(s: &[f32], cells: &[f32], out: &mut [f32]) {
    let mut pid = RatePid::new(s[0], s[1], s[2], s[3], s[4]);
    for (y, c) in out.iter_mut().zip(cells.chunks_exact(3)) {
        *y = pid.update(c[0], c[1], c[2]);
    }
}

fn main() {
    let runs: &[(&str, Run)] = &[
        ("Rust", rust),
        ("by value", |s, cells, out| call(plumradek_updates, s, cells, out)),
        ("in place", |s, cells, out| call(plumradek_updates_in_place, s, cells, out)),
        #[cfg(before)]
        ("before, by value", |s, cells, out| call(before_updates, s, cells, out)),
        #[cfg(before)]
        ("before, in place", |s, cells, out| call(before_updates_in_place, s, cells, out)),
    ];
    compare("an update", &SETTINGS, &cells(), runs);
}
