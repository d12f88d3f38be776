//! A driver over the Rust, unchanged but for request W4's one formula (oracle/lowpass_rule): it answers the lines of the
//! protocol (CALLS.md) and makes such lines.

pub mod check;
pub mod counted;
pub mod generator;
pub mod kinds;
pub mod known;
pub mod life;
pub mod lines;
pub mod notches;
pub mod options;
pub mod panics;
pub mod parts;
pub mod patterns;
pub mod protocol;
pub mod random;
pub mod ranges;
pub mod states;
pub mod times;
pub mod told;
pub mod values;
