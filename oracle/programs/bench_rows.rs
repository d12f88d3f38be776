//! The time of one lane's update in rows of 1, 2, 4 and 8 lanes: the Rust's array of controllers, and the project's rows; of eight lanes also one
//! call of the bank an update.

mod flight;
mod timing;

use flight::{cells, SETTINGS};
use holsatus::filters::rate_pid::RatePid;
use timing::{call, compare, Run};

extern "C" {
    fn plumradek_rows_1(s: *const f32, ns: usize, cells: *const f32, n: usize, out: *mut f32, no: usize);
    fn plumradek_rows_2(s: *const f32, ns: usize, cells: *const f32, n: usize, out: *mut f32, no: usize);
    fn plumradek_rows_4(s: *const f32, ns: usize, cells: *const f32, n: usize, out: *mut f32, no: usize);
    fn plumradek_rows_8(s: *const f32, ns: usize, cells: *const f32, n: usize, out: *mut f32, no: usize);
    fn plumradek_calls(s: *const f32, ns: usize, cells: *const f32, n: usize, out: *mut f32, no: usize);
}

#[inline(never)]
fn rust<const LANES: usize>(s: &[f32], cells: &[f32], out: &mut [f32]) {
    let mut pids: [RatePid; LANES] = std::array::from_fn(|_| RatePid::new(s[0], s[1], s[2], s[3], s[4]));
    for (row, ys) in cells.chunks_exact(3 * LANES).zip(out.chunks_exact_mut(LANES)) {
        for ((pid, c), y) in pids.iter_mut().zip(row.chunks_exact(3)).zip(ys) {
            *y = pid.update(c[0], c[1], c[2]);
        }
    }
}

fn main() {
    let cells = cells();
    let lanes = |heading, runs: &[(&str, Run)]| {
        println!("{heading}");
        compare("an update", &SETTINGS, &cells, runs);
    };
    lanes("1 lane", &[("Rust", rust::<1>), ("by rows", |s, cells, out| call(plumradek_rows_1, s, cells, out))]);
    lanes("2 lanes", &[("Rust", rust::<2>), ("by rows", |s, cells, out| call(plumradek_rows_2, s, cells, out))]);
    lanes("4 lanes", &[("Rust", rust::<4>), ("by rows", |s, cells, out| call(plumradek_rows_4, s, cells, out))]);
    lanes(
        "8 lanes",
        &[
            ("Rust", rust::<8>),
            ("by rows", |s, cells, out| call(plumradek_rows_8, s, cells, out)),
            ("by calls", |s, cells, out| call(plumradek_calls, s, cells, out)),
        ],
    );
}
