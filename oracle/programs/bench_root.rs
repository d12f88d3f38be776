//! The time of one root and of the two calls that take one: the hardware's or the Rust's, ours before and ours now. 'Before' is
//! another library of ours, which `oracle/before` builds.

mod timing;

use holsatus::fields::Fields;
use holsatus::filters::motor_lin::MotorLin;
use holsatus::filters::statistics::Statistics;
use std::arch::asm;
use std::sync::OnceLock;
use timing::{compare, noise, Run, CALLS};

extern "C" {
    fn plumradek_sqrt(x: f32) -> f32;
    fn plumradek_force_to_command(a: f32, b: f32, c_min: f32, c_max: f32, f_min: f32, f_max: f32, force: f32) -> f32;
    fn plumradek_std_dev(alpha: f32, variance: f32) -> f32;
    fn before_sqrt(x: f32) -> f32;
    fn before_force_to_command(a: f32, b: f32, c_min: f32, c_max: f32, f_min: f32, f_max: f32, force: f32) -> f32;
    fn before_std_dev(alpha: f32, variance: f32) -> f32;
}

/// A call like the others', so that the call itself costs all of them the same.
#[inline(never)]
extern "C" fn hardware(x: f32) -> f32 {
    x.sqrt()
}

/// A call that gives its number back: what the call and the loop around it take.
#[inline(never)]
extern "C" fn nothing(mut x: f32) -> f32 {
    // So that the compiler does not see that it is the same number.
    unsafe { asm!("/* {0} */", inout(xmm_reg) x, options(nomem, nostack, preserves_flags)) };
    x
}

/// Each number by itself: the next call can begin before the last one has ended.
#[inline(always)]
fn each(xs: &[f32], out: &mut [f32], call: impl Fn(f32) -> f32) {
    for (y, x) in out.iter_mut().zip(xs) {
        *y = call(*x);
    }
}

/// Each call waits for the answer before it, of which `mask`, which is 0, lets nothing through.
#[inline(always)]
fn waiting(mask: f32, xs: &[f32], out: &mut [f32], call: impl Fn(f32) -> f32) {
    let mut last = 0;
    for (y, x) in out.iter_mut().zip(xs) {
        *y = call(f32::from_bits(x.to_bits() ^ last & mask.to_bits()));
        last = y.to_bits();
    }
}

const AS_THEY_COME: &str = "a call";
const EACH_WAITS: &str = "a call that waits for the last";

fn empty_calls(numbers: &[f32]) {
    compare(AS_THEY_COME, &[0.0], numbers, &[("empty", |_, xs, out| each(xs, out, |x| nothing(x)))]);
    compare(EACH_WAITS, &[0.0], numbers, &[("empty", |s, xs, out| waiting(s[0], xs, out, |x| nothing(x)))]);
}

fn roots(numbers: &[f32]) {
    // Sound because the functions take and give a number alone.
    let as_they_come: [(&str, Run); 3] = [
        ("hardware", |_, xs, out| each(xs, out, |x| hardware(x))),
        ("before", |_, xs, out| each(xs, out, |x| unsafe { before_sqrt(x) })),
        ("now", |_, xs, out| each(xs, out, |x| unsafe { plumradek_sqrt(x) })),
    ];
    compare(AS_THEY_COME, &[0.0], numbers, &as_they_come);
    let each_waits: [(&str, Run); 3] = [
        ("hardware", |s, xs, out| waiting(s[0], xs, out, |x| hardware(x))),
        ("before", |s, xs, out| waiting(s[0], xs, out, |x| unsafe { before_sqrt(x) })),
        ("now", |s, xs, out| waiting(s[0], xs, out, |x| unsafe { plumradek_sqrt(x) })),
    ];
    compare(EACH_WAITS, &[0.0], numbers, &each_waits);
}

/// a, b, and the limits of the command.
const MOTOR: [f32; 4] = [5.0, 0.5, 0.05, 1.0];

#[inline(never)]
fn rust_commands(motor: &[f32], forces: &[f32], out: &mut [f32]) {
    let motor = MotorLin::new(motor[0], motor[1], motor[2], motor[3]);
    each(forces, out, |force| force_to_command(&motor, force));
}

#[inline(never)]
fn force_to_command(motor: &MotorLin<f32>, force: f32) -> f32 {
    motor.force_to_command(force)
}

type Commanding = unsafe extern "C" fn(f32, f32, f32, f32, f32, f32, f32) -> f32;

#[inline(always)]
fn commands(motor: &[f32], forces: &[f32], out: &mut [f32], call: Commanding) {
    let made = MotorLin::new(motor[0], motor[1], motor[2], motor[3]);
    let (weakest, strongest) = (made.min_force(), made.max_force());
    // Sound because the function takes and gives numbers alone.
    each(forces, out, |force| unsafe { call(motor[0], motor[1], motor[2], motor[3], weakest, strongest, force) });
}

const ALPHA: f32 = 0.01;
static STATES: OnceLock<Vec<Statistics<f32>>> = OnceLock::new();

/// States with those variances: initialized, alpha, mean, variance.
fn states(variances: &[f32]) -> Vec<Statistics<f32>> {
    let state = |variance: &f32| Fields::read(&mut [1, ALPHA.to_bits(), 0, variance.to_bits()].into_iter());
    variances.iter().map(state).collect()
}

#[inline(never)]
fn std_dev(state: &Statistics<f32>) -> f32 {
    state.std_dev()
}

#[inline(never)]
fn rust_deviations(_: &[f32], _: &[f32], out: &mut [f32]) {
    for (y, state) in out.iter_mut().zip(STATES.get().expect("set before the runs")) {
        *y = std_dev(state);
    }
}

fn main() {
    let mut noise = noise();
    let mut uniform = || noise() + 0.5;
    let mut numbers = |number: &mut dyn FnMut(f32) -> f32| (0..CALLS).map(|_| number(uniform())).collect::<Vec<f32>>();
    // Patterns of every exponent but the subnormals', then those of subnormals.
    let all_sizes = numbers(&mut |u| f32::from_bits(0x80_0000 + (u as f64 * 0x7f00_0000 as f64) as u32));
    let to_four = numbers(&mut |u| u * 4.0);
    let subnormals = numbers(&mut |u| f32::from_bits(1 + (u as f64 * 0x7f_fffe as f64) as u32));
    println!("empty calls");
    empty_calls(&to_four);
    for (heading, numbers) in
        [("numbers of all sizes", &all_sizes), ("numbers from 0 to 4", &to_four), ("subnormals", &subnormals)]
    {
        println!("{heading}");
        roots(numbers);
    }
    println!("force_to_command");
    compare(
        AS_THEY_COME,
        &MOTOR,
        &to_four,
        &[
            ("Rust", rust_commands),
            ("before", |motor, forces, out| commands(motor, forces, out, before_force_to_command)),
            ("now", |motor, forces, out| commands(motor, forces, out, plumradek_force_to_command)),
        ],
    );
    println!("std_dev");
    STATES.get_or_init(|| states(&to_four));
    compare(
        AS_THEY_COME,
        &[ALPHA],
        &to_four,
        &[
            ("Rust", rust_deviations),
            ("before", |s, variances, out| each(variances, out, |v| unsafe { before_std_dev(s[0], v) })),
            ("now", |s, variances, out| each(variances, out, |v| unsafe { plumradek_std_dev(s[0], v) })),
        ],
    );
}
