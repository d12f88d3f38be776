//! The differences between the Rust and document 01 that are known and written down: they are counted apart.

/// One known difference: in which calls, on which operands and answers, and why.
pub struct Known {
    pub call: &'static str,
    pub reason: &'static str,
    /// Of the operands, the Rust's answer and the other one.
    pub holds: fn(&[u32], &[u8], &[u8]) -> bool,
}

/// None has shown itself in a run so far.
pub const KNOWN: &[Known] = &[];

/// Whether a known difference explains these answers.
pub fn is_known(call: &str, operands: &[u32], rust: &[u8], other: &[u8]) -> bool {
    KNOWN.iter().any(|known| known.call == call && (known.holds)(operands, rust, other))
}
