//! The options of the programs that make lines.

use crate::parts::{Part, ALL};
use std::process::exit;

/// So many lines are compared unless the options say otherwise.
pub const COMPARED_LINES: u64 = 10_000_000;
/// A run with `--quick` is always the same.
const QUICK_LINES: u64 = 300_000;
const QUICK_SEED: u64 = 1;

pub struct Options {
    pub seed: u64,
    pub lines: u64,
    pub parts: Vec<&'static Part>,
    /// The program to compare with.
    pub calls: String,
    /// Only lines that can stand in a fixed list.
    pub listed: bool,
}

impl Options {
    /// The options of this run, or the end of it with a word on what is wrong.
    pub fn read(lines: u64) -> Self {
        let mut options = Options { seed: 1, lines, parts: ALL.iter().filter(|part| part.landed).collect(), calls: String::new(), listed: false };
        let mut words = std::env::args().skip(1);
        while let Some(word) = words.next() {
            let mut value = || words.next().unwrap_or_else(|| wrong(&format!("{word} needs a value")));
            match word.as_str() {
                "--seed" => options.seed = number(&value()),
                "--lines" => options.lines = number(&value()),
                "--part" => options.parts = vec![part(&value())],
                "--calls" => options.calls = value(),
                "--listed" => options.listed = true,
                "--quick" => (options.lines, options.seed) = (QUICK_LINES, QUICK_SEED),
                _ => wrong(&format!("unknown option {word}")),
            }
        }
        options
    }
}

fn number(text: &str) -> u64 {
    text.replace([',', '_'], "").parse().unwrap_or_else(|_| wrong(&format!("not a number: {text}")))
}

fn part(name: &str) -> &'static Part {
    ALL.iter().find(|part| part.name == name).unwrap_or_else(|| {
        let names: Vec<_> = ALL.iter().map(|part| part.name).collect();
        wrong(&format!("no part {name}; there is {}", names.join(", ")))
    })
}

fn wrong(what: &str) -> ! {
    eprintln!("{what}");
    exit(2)
}
