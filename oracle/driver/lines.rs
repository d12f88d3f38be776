//! Lines from a stream, in constant memory.

use crate::protocol::LONGEST;
use std::io::{BufRead, BufReader, Read, Result};

pub struct Lines<R> {
    input: BufReader<R>,
    line: Vec<u8>,
}

impl<R: Read> Lines<R> {
    pub fn new(input: R) -> Self {
        Lines { input: BufReader::with_capacity(1 << 16, input), line: Vec::new() }
    }

    /// The next line without its line feed, or nothing at the end. Of a line that is longer than any well-formed
    /// one only so much is kept that its length is still too long.
    pub fn next_line(&mut self) -> Result<Option<&[u8]>> {
        self.line.clear();
        let mut begun = false;
        loop {
            let window = self.input.fill_buf()?;
            if window.is_empty() {
                return Ok(begun.then_some(&self.line));
            }
            begun = true;
            let end = window.iter().position(|&b| b == b'\n');
            let part = &window[..end.unwrap_or(window.len())];
            let room = (LONGEST + 1).saturating_sub(self.line.len());
            self.line.extend_from_slice(&part[..part.len().min(room)]);
            let taken = part.len() + end.is_some() as usize;
            self.input.consume(taken);
            if end.is_some() {
                return Ok(Some(&self.line));
            }
        }
    }
}
