//! Stands in for the crate `num_traits`: one trait, named both `Float` and `real::Real`, with the methods that the
//! sources use. Every method is std's own on f32, but `clamp`, and `max` and `min` of equal numbers: no arithmetic is
//! written here.

pub mod float {
    use core::ops::{Add, Div, Mul, Neg, Sub};

    /// What `Float::from` accepts.
    pub trait ToPrimitive {
        fn nearest_f32(self) -> f32;
    }

    impl ToPrimitive for f64 {
        fn nearest_f32(self) -> f32 {
            self as f32
        }
    }

    impl ToPrimitive for usize {
        fn nearest_f32(self) -> f32 {
            self as f32
        }
    }

    pub trait Float:
        Copy
        + PartialOrd
        + Neg<Output = Self>
        + Add<Output = Self>
        + Sub<Output = Self>
        + Mul<Output = Self>
        + Div<Output = Self>
    {
        /// The stand-in's own two methods. All others reach std's method on f32 through them, so that a number
        /// type of ours has to give these alone.
        fn of_f32(x: f32) -> Self;
        fn as_f32(self) -> f32;

        fn zero() -> Self {
            Self::of_f32(0.0)
        }
        fn one() -> Self {
            Self::of_f32(1.0)
        }
        fn from<N: ToPrimitive>(n: N) -> Option<Self> {
            Some(Self::of_f32(n.nearest_f32()))
        }
        fn is_sign_positive(self) -> bool {
            self.as_f32().is_sign_positive()
        }
        #[inline(always)]
        fn abs(self) -> Self {
            Self::of_f32(self.as_f32().abs())
        }
        #[inline(always)]
        fn sqrt(self) -> Self {
            Self::of_f32(self.as_f32().sqrt())
        }
        #[inline(always)]
        fn tan(self) -> Self {
            Self::of_f32(self.as_f32().tan())
        }
        #[inline(always)]
        fn powi(self, n: i32) -> Self {
            Self::of_f32(self.as_f32().powi(n))
        }
        /// Of two zeros of opposite sign std leaves open which one it is, and processors differ (docs/DIFFERENCES.md): document
        /// 01 takes the first. Equal numbers that are no zeros are the same, so the first is right there too.
        #[inline(always)]
        fn max(self, other: Self) -> Self {
            if self == other {
                self
            } else {
                Self::of_f32(self.as_f32().max(other.as_f32()))
            }
        }
        /// As `max`.
        #[inline(always)]
        fn min(self, other: Self) -> Self {
            if self == other {
                self
            } else {
                Self::of_f32(self.as_f32().min(other.as_f32()))
            }
        }
        /// As num_traits 0.2 has it: unlike std's, it answers where the bounds are in the wrong order or NaN.
        #[inline(always)]
        fn clamp(self, min: Self, max: Self) -> Self {
            debug_assert!(min <= max, "min must be less than or equal to max");
            if self < min {
                min
            } else if self > max {
                max
            } else {
                self
            }
        }
    }

    impl Float for f32 {
        #[inline(always)]
        fn of_f32(x: f32) -> Self {
            x
        }
        #[inline(always)]
        fn as_f32(self) -> f32 {
            self
        }
    }
}

pub mod real {
    pub use crate::float::Float as Real;
}

pub use float::Float;
