//! The program `calls` and the Rust on the same generated lines, answer by answer, in constant memory.

use driver::generator::Generator;
use driver::known::{is_known, KNOWN};
use driver::lines::Lines;
use driver::options::{Options, COMPARED_LINES};
use driver::protocol::Driver;
use std::io::{Result, Write};
use std::process::{exit, ChildStdin, ChildStdout, Command, Stdio};
use std::sync::mpsc::{channel, Receiver, Sender};
use std::thread;

/// Lines go to the program and to the comparison in runs of about so many bytes.
const RUN: usize = 1 << 16;

/// What is counted for one call name.
#[derive(Clone, Default)]
struct Tally {
    compared: u64,
    skipped: u64,
    known: u64,
    differ: u64,
    smallest: Option<Difference>,
}

#[derive(Clone)]
struct Difference {
    size: u32,
    line_number: u64,
    line: String,
    rust: String,
    calls: String,
}

fn main() -> Result<()> {
    let options = Options::read(COMPARED_LINES);
    println!("seed {}, {} lines, {}", options.seed, options.lines, options.calls);
    let mut calls = Command::new(&options.calls)
        .stdin(Stdio::piped())
        .stdout(Stdio::piped())
        .spawn()
        .unwrap_or_else(|why| fail(&format!("{} does not start: {why}", options.calls)));
    let input = calls.stdin.take().unwrap();
    let output = calls.stdout.take().unwrap();

    // The channel is not bounded, so writing never waits for the comparison; the pipes keep it short all the same.
    let (sender, runs) = channel();
    let generator = Generator::new(options.seed, &options.parts);
    let without_last_feed = options.seed % 2 == 1;
    let writer = thread::spawn(move || write_lines(generator, options.lines, without_last_feed, input, sender));

    let (driver, tallies) = compare(runs, output);
    // A program that ends too early closes the pipe; the comparison has told that already.
    let _ = writer.join().unwrap();
    let differ = report(&driver, &tallies);
    let status = calls.wait()?;
    if !status.success() {
        fail(&format!("calls ended with {status}"));
    }
    exit((differ > 0) as i32)
}

/// Makes the lines and hands each run of them first to the comparison, then to the program.
/// Where asked, the very last line feed is left out: an input may end so.
fn write_lines(
    mut generator: Generator,
    lines: u64,
    without_last_feed: bool,
    mut input: ChildStdin,
    runs: Sender<Vec<u8>>,
) -> Result<()> {
    let mut run = Vec::with_capacity(RUN);
    for number in 1..=lines {
        let line = generator.next_line();
        run.extend_from_slice(line);
        // An empty line without its line feed would be no line.
        if !(number == lines && without_last_feed && !line.is_empty()) {
            run.push(b'\n');
        }
        if run.len() >= RUN || number == lines {
            runs.send(run.clone()).unwrap();
            input.write_all(&run)?;
            run.clear();
        }
    }
    Ok(())
}

/// One tally for each call name and, last, one for the malformed lines.
fn compare(runs: Receiver<Vec<u8>>, output: ChildStdout) -> (Driver, Vec<Tally>) {
    let mut driver = Driver::new();
    let malformed = driver.names().len();
    let mut tallies = vec![Tally::default(); malformed + 1];
    let mut answers = Lines::new(output);
    let mut rust = Vec::new();
    let mut line_number = 0;
    for run in runs {
        for line in run.strip_suffix(b"\n").unwrap_or(&run).split(|&b| b == b'\n') {
            line_number += 1;
            rust.clear();
            let call = driver.answer(line, &mut rust).unwrap_or(malformed);
            let answer = answers.next_line().unwrap_or_else(|why| fail(&format!("calls cannot be read: {why}")));
            let Some(answer) = answer else {
                fail(&format!("calls gives no answer to line {line_number} nor to any after it"));
            };
            count(&mut tallies[call], &driver, call, (line_number, line), &rust, answer);
        }
    }
    if answers.next_line().is_ok_and(|more| more.is_some()) {
        fail("calls gives more answers than there are lines");
    }
    (driver, tallies)
}

#[inline]
fn count(tally: &mut Tally, driver: &Driver, call: usize, at: (u64, &[u8]), rust: &[u8], calls: &[u8]) {
    if rust == b"-" {
        tally.skipped += 1;
        return;
    }
    tally.compared += 1;
    if rust != calls {
        differing(tally, driver, call, at, rust, calls);
    }
}

fn differing(tally: &mut Tally, driver: &Driver, call: usize, at: (u64, &[u8]), rust: &[u8], calls: &[u8]) {
    if is_known(name(driver, call), driver.operands(), rust, calls) {
        tally.known += 1;
        return;
    }
    tally.differ += 1;
    let (line_number, line) = at;
    // The smallest input to read: the shortest line, and of these the one with the fewest bits set.
    let size = line.len() as u32 * 32 + driver.operands().iter().map(|x| x.count_ones()).sum::<u32>();
    if tally.smallest.as_ref().is_none_or(|smallest| size < smallest.size) {
        let [line, rust, calls] = [line, rust, calls].map(|text| text.escape_ascii().to_string());
        tally.smallest = Some(Difference { size, line_number, line, rust, calls });
    }
}

fn name(driver: &Driver, call: usize) -> &'static str {
    driver.names().get(call).copied().unwrap_or("(malformed)")
}

/// Prints the tallies and gives the number of differences that are not known.
fn report(driver: &Driver, tallies: &[Tally]) -> u64 {
    println!("{:32} {:>12} {:>12} {:>12} {:>12}", "call", "compared", "skipped", "known", "differ");
    for (call, tally) in tallies.iter().enumerate().filter(|(_, tally)| tally.compared + tally.skipped > 0) {
        let Tally { compared, skipped, known, differ, .. } = tally;
        println!("{:32} {compared:>12} {skipped:>12} {known:>12} {differ:>12}", name(driver, call));
    }
    for Difference { line_number, line, rust, calls, .. } in tallies.iter().filter_map(|t| t.smallest.as_ref()) {
        println!("line {line_number}: {line}\n  Rust:  {rust}\n  calls: {calls}");
    }
    for known in KNOWN {
        println!("known: {}: {}", known.call, known.reason);
    }
    let total = |of: fn(&Tally) -> u64| tallies.iter().map(of).sum::<u64>();
    let differ = total(|t| t.differ);
    println!("{} compared, {} skipped, {differ} differ", total(|t| t.compared), total(|t| t.skipped));
    differ
}

fn fail(what: &str) -> ! {
    println!("{what}");
    exit(1)
}
