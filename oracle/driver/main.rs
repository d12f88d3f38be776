//! Answers the lines of standard input on standard output, as the program `calls` does, by running the Rust.

use driver::lines::Lines;
use driver::protocol::Driver;
use std::io::{stdin, stdout, BufWriter, Result, Write};

fn main() -> Result<()> {
    let mut driver = Driver::new();
    let mut lines = Lines::new(stdin().lock());
    let mut output = BufWriter::with_capacity(1 << 16, stdout().lock());
    let mut answer = Vec::new();
    while let Some(line) = lines.next_line()? {
        answer.clear();
        driver.answer(line, &mut answer);
        answer.push(b'\n');
        output.write_all(&answer)?;
    }
    output.flush()
}
