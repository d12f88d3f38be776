//! Where the Rust panics, document 01 has a refusal. Here a panic becomes a value.

use std::any::Any;
use std::cell::Cell;
use std::panic::{catch_unwind, set_hook, take_hook, AssertUnwindSafe};

thread_local! {
    static AWAITED: Cell<bool> = const { Cell::new(false) };
}

/// Keeps a panic inside `caught` from being printed; any other is printed as ever. Called once in a program.
pub fn silence_awaited() {
    let usual = take_hook();
    set_hook(Box::new(move |about| {
        if !AWAITED.get() {
            usual(about);
        }
    }));
}

/// The value of `run`, or what it panicked with.
#[inline]
pub fn caught<T>(run: impl FnOnce() -> T) -> Result<T, Box<dyn Any + Send>> {
    AWAITED.set(true);
    // Safe because a caller keeps nothing that a panic may have left half done.
    let value = catch_unwind(AssertUnwindSafe(run));
    AWAITED.set(false);
    value
}
