//! What the calls on a state have in common: document 01's refusals come first, then the Rust's own method runs.

use crate::protocol::{Answer, Call, Calls, Operands, Table};
use holsatus::fields::{all_zero, Fields, State};
use holsatus::refusals::first;

/// The calls on one state, which is all-zero at the start.
pub fn table<T: State + 'static>(calls: &'static [Call<T>]) -> Box<dyn Calls> {
    Box::new(Table { state: all_zero(), calls })
}

/// `T.show`.
pub fn show<T: State>(state: &mut T, _: &Operands, to: &mut Answer) {
    to.refusal(0).fields(state);
}

/// `T.state`: set by hand, unchecked.
pub fn by_hand<T: State>(state: &mut T, x: &Operands, to: &mut Answer) {
    *state = x.fields(0);
    to.refusal(0);
}

/// A constructor, and the refusal of its operands.
pub fn construct<T: State>(state: &mut T, own: u32, to: &mut Answer, make: impl FnOnce() -> T) {
    *state = if own == 0 { make() } else { all_zero() };
    to.refusal(own);
}

/// A constructor whose refusals are those of the state that it makes.
pub fn construct_checked<T: State>(state: &mut T, to: &mut Answer, make: impl FnOnce() -> T) {
    let made = make();
    construct(state, made.refusal(), to, || made);
}

/// Any other call, and the refusal of its operands: it comes after that of the stored numbers.
pub fn call_checked<T: State, R: Fields>(state: &mut T, own: u32, to: &mut Answer, run: impl FnOnce(&mut T) -> R) {
    let refusal = first([state.refusal(), own]);
    let result = if refusal == 0 { run(state) } else { all_zero() };
    to.refusal(refusal).fields(&result);
}

/// A call whose operands are never refused.
pub fn call<T: State, R: Fields>(state: &mut T, to: &mut Answer, run: impl FnOnce(&mut T) -> R) {
    call_checked(state, 0, to, run);
}
