//! Prints call lines from a seed.

use driver::generator::Generator;
use driver::options::Options;
use driver::protocol::Driver;
use std::io::{stdout, BufWriter, Result, Write};

fn main() -> Result<()> {
    let options = Options::read(1_000);
    let mut generator = Generator::new(options.seed, &options.parts);
    let mut driver = Driver::new();
    let mut answer = Vec::new();
    let mut output = BufWriter::with_capacity(1 << 16, stdout().lock());
    let mut made = 0;
    while made < options.lines {
        let line = generator.next_line();
        if options.listed {
            answer.clear();
            driver.answer(line, &mut answer);
            if answer == b"-" || !readable(line) {
                continue;
            }
        }
        output.write_all(line)?;
        output.write_all(b"\n")?;
        made += 1;
    }
    output.flush()
}

/// Whether a line can stand in a file that people read: of plain characters, and not without end.
fn readable(line: &[u8]) -> bool {
    line.len() < 3_000 && line.iter().all(|&b| b == b'\t' || (b' '..=b'~').contains(&b))
}
