//! The parts of the protocol, listed once. A part is a file of its own with two functions: `tables`, its calls with
//! their states at the start, and `lines`, a maker of its lines.

use crate::generator::Maker;
use crate::protocol::Calls;

pub struct Part {
    pub name: &'static str,
    /// Whether `calls` has the part too. One that it has not yet is compared only where it is named.
    pub landed: bool,
    pub tables: fn() -> Vec<Box<dyn Calls>>,
    pub lines: fn() -> Box<Maker>,
}

macro_rules! parts {
    ($($name:ident)* ; $($coming:ident)*) => {
        $(mod $name;)*
        $(mod $coming;)*
        pub const ALL: &[Part] = &[
            $(Part { name: stringify!($name), landed: true, tables: $name::tables, lines: $name::lines },)*
            $(Part { name: stringify!($coming), landed: false, tables: $coming::tables, lines: $coming::lines },)*
        ];
    };
}

parts! {
    numbers
    filters
    rates
    linear_lut
    motor_lin
    statistics
    airframe
    notch
    angle_pid
    rate_pid
    bank
    ;
}
