//! An f32 that is told its tangent. The sources' generic code, run unchanged with this type, thereby goes on with the t
//! of a line where the Rust works out a tangent.

use holsatus::fields::Fields;
use holsatus::filters::NotchFilter;
use num_traits::Float;
use std::cell::Cell;
use std::ops::{Add, Div, Mul, Neg, Sub};

#[derive(Clone, Copy, Debug, PartialEq, PartialOrd)]
pub struct Told(pub f32);

thread_local! {
    /// What the tangent will be; nothing once it has been asked for.
    static NEXT_TANGENT: Cell<Option<f32>> = const { Cell::new(None) };
    /// The number of which it was asked for last.
    static ANGLE: Cell<f32> = const { Cell::new(0.0) };
}

/// The value of `run`, which asks for one tangent and is told t, and the number of which it asks.
pub fn with_tangent<T>(t: f32, run: impl FnOnce() -> T) -> (T, f32) {
    NEXT_TANGENT.set(Some(t));
    let value = run();
    assert!(NEXT_TANGENT.take().is_none(), "the Rust asks for no tangent");
    (value, ANGLE.get())
}

/// The number whose tangent the Rust works out for a notch with that centre and sampling time.
pub fn angle(fc: f32, dt: f32) -> f32 {
    with_tangent(0.0, || NotchFilter::new(Told(fc), Told(0.0), Told(dt))).1
}

impl Fields for Told {
    fn read(words: &mut dyn Iterator<Item = u32>) -> Self {
        Told(f32::read(words))
    }
    fn write(&self, to: &mut dyn FnMut(u32)) {
        self.0.write(to);
    }
}

impl Float for Told {
    fn of_f32(x: f32) -> Self {
        Told(x)
    }
    fn as_f32(self) -> f32 {
        self.0
    }
    fn tan(self) -> Self {
        ANGLE.set(self.0);
        Told(NEXT_TANGENT.take().expect("the Rust asks for a tangent that it was not told"))
    }
}

impl Neg for Told {
    type Output = Self;
    fn neg(self) -> Self {
        Told(-self.0)
    }
}

/// f32's own operation.
macro_rules! operation {
    ($($trait:ident $method:ident)*) => {
        $(impl $trait for Told {
            type Output = Self;
            fn $method(self, other: Self) -> Self {
                Told(self.0.$method(other.0))
            }
        })*
    };
}

operation!(Add add Sub sub Mul mul Div div);
