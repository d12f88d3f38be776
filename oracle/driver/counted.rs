//! An f32 that counts what is done with it. The sources' generic code, run unchanged with this type, thereby tells how
//! many steps it makes; and a loop that would never end is stopped.

use crate::panics::caught;
use holsatus::fields::Fields;
use num_traits::Float;
use std::cell::Cell;
use std::ops::{Add, AddAssign, Div, Mul, Neg, Sub, SubAssign};
use std::panic::resume_unwind;

/// More wrapping steps than these are refused.
pub const MOST_STEPS: u32 = 64;

#[derive(Clone, Copy, Debug, PartialEq, PartialOrd)]
pub struct Counted(pub f32);

/// Why a count has no value.
pub enum Stopped {
    /// One operation more than the limit was about to be made.
    PastLimit,
    /// The Rust itself panicked.
    Panic,
}

thread_local! {
    static DONE: Cell<u32> = const { Cell::new(0) };
    static LIMIT: Cell<u32> = const { Cell::new(0) };
    /// What is counted: every addition and subtraction, or where addresses stand here, `+=` and `-=` on a number
    /// that does not lie between them.
    static OUTSIDE: Cell<Option<(usize, usize)>> = const { Cell::new(None) };
}

/// What unwinds from the operation past the limit; private, so nothing else can be taken for it.
struct PastLimit;

/// The value of `run` and how many additions and subtractions of `Counted` it made, at most `limit`.
#[inline]
pub fn counting<T>(limit: u32, run: impl FnOnce() -> T) -> Result<(T, u32), Stopped> {
    count_in(limit, None, run)
}

/// The value of `run` and how often it changed, by `+=` or `-=`, a `Counted` that is not a field of `state`: at most
/// `limit` times.
#[inline]
pub fn counting_outside<S, T>(limit: u32, state: &mut S, run: impl FnOnce(&mut S) -> T) -> Result<(T, u32), Stopped> {
    let address = state as *const S as usize;
    count_in(limit, Some((address, address + size_of::<S>())), || run(state))
}

#[inline]
fn count_in<T>(limit: u32, outside: Option<(usize, usize)>, run: impl FnOnce() -> T) -> Result<(T, u32), Stopped> {
    DONE.set(0);
    LIMIT.set(limit);
    OUTSIDE.set(outside);
    match caught(run) {
        Ok(value) => Ok((value, DONE.get())),
        Err(payload) if payload.is::<PastLimit>() => Err(Stopped::PastLimit),
        Err(_) => Err(Stopped::Panic),
    }
}

#[inline(always)]
fn count() {
    let done = DONE.get();
    if done == LIMIT.get() {
        resume_unwind(Box::new(PastLimit));
    }
    DONE.set(done + 1);
}

#[inline(always)]
fn count_operation() {
    if OUTSIDE.get().is_none() {
        count();
    }
}

#[inline(always)]
fn count_change(of: &Counted) {
    let place = of as *const Counted as usize;
    if OUTSIDE.get().is_some_and(|(from, to)| !(from..to).contains(&place)) {
        count();
    }
}

impl Fields for Counted {
    fn read(words: &mut dyn Iterator<Item = u32>) -> Self {
        Counted(f32::read(words))
    }
    fn write(&self, to: &mut dyn FnMut(u32)) {
        self.0.write(to);
    }
}

impl Float for Counted {
    #[inline(always)]
    fn of_f32(x: f32) -> Self {
        Counted(x)
    }
    #[inline(always)]
    fn as_f32(self) -> f32 {
        self.0
    }
}

impl Add for Counted {
    type Output = Self;
    #[inline(always)]
    fn add(self, other: Self) -> Self {
        count_operation();
        Counted(self.0 + other.0)
    }
}

impl Sub for Counted {
    type Output = Self;
    #[inline(always)]
    fn sub(self, other: Self) -> Self {
        count_operation();
        Counted(self.0 - other.0)
    }
}

impl AddAssign for Counted {
    #[inline(always)]
    fn add_assign(&mut self, other: Self) {
        count_change(self);
        *self = *self + other;
    }
}

impl SubAssign for Counted {
    #[inline(always)]
    fn sub_assign(&mut self, other: Self) {
        count_change(self);
        *self = *self - other;
    }
}

impl Mul for Counted {
    type Output = Self;
    #[inline(always)]
    fn mul(self, other: Self) -> Self {
        Counted(self.0 * other.0)
    }
}

impl Div for Counted {
    type Output = Self;
    #[inline(always)]
    fn div(self, other: Self) -> Self {
        Counted(self.0 / other.0)
    }
}

impl Neg for Counted {
    type Output = Self;
    #[inline(always)]
    fn neg(self) -> Self {
        Counted(-self.0)
    }
}
