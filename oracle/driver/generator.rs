//! Call lines from a seed: those of the parts, and about one in two hundred of them damaged.

use crate::parts::Part;
use crate::protocol::{word, LONGEST};
use crate::random::Random;

/// One line damaged in so many.
const DAMAGED_ONE_IN: usize = 200;

/// A line in the making, without its line feed.
#[derive(Default)]
pub struct Line {
    pub bytes: Vec<u8>,
}

impl Line {
    pub fn call(&mut self, name: &str, operands: &[u32]) {
        self.bytes.extend_from_slice(name.as_bytes());
        for &operand in operands {
            word(operand, &mut self.bytes);
        }
    }
}

/// Makes one well-formed line; it may remember what it has made.
pub type Maker = dyn FnMut(&mut Random, &mut Line) + Send;

/// The lines of some parts, without end.
pub struct Generator {
    random: Random,
    makers: Vec<Box<Maker>>,
    line: Line,
}

impl Generator {
    pub fn new(seed: u64, parts: &[&Part]) -> Self {
        let makers = parts.iter().map(|part| (part.lines)()).collect();
        Generator { random: Random::new(seed), makers, line: Line::default() }
    }

    pub fn next_line(&mut self) -> &[u8] {
        let r = &mut self.random;
        self.line.bytes.clear();
        let maker = r.below(self.makers.len());
        self.makers[maker](r, &mut self.line);
        if r.once_in(DAMAGED_ONE_IN) {
            let damage = r.one_of(&DAMAGES);
            damage(r, &mut self.line.bytes);
        }
        &self.line.bytes
    }
}

/// Every way in which a line can be malformed. Each is given a well-formed line; a few chances leave it well-formed.
const DAMAGES: [fn(&mut Random, &mut Vec<u8>); 18] = [
    |_, line| line.clear(),
    |_, line| *line = b" ".to_vec(),
    // Another name: a letter more, a letter less, a capital, no name.
    |r, line| {
        let end = name_end(line);
        line.insert(end, r.one_of(b"0az_."));
    },
    |_, line| {
        line.remove(name_end(line) - 1);
    },
    |_, line| line[0].make_ascii_uppercase(),
    |_, line| {
        line.drain(..name_end(line));
    },
    // Another digit: a capital one, none at all, any byte.
    |r, line| set_digit(r, line, b"ABCDEF"),
    |r, line| set_digit(r, line, b"gGxX-+._/:@`"),
    |r, line| {
        let byte = r.bits() as u8;
        let place = r.below(line.len());
        line[place] = if byte == b'\n' { b'\r' } else { byte };
    },
    // Seven digits, nine digits.
    |_, line| {
        line.pop();
    },
    |r, line| line.push(r.one_of(b"0f")),
    // An operand less, an operand more.
    |_, line| line.truncate(line.len().saturating_sub(9).max(1)),
    |r, line| word(r.bits() as u32, line),
    // An operand 2: no longer a bool, if it was one.
    |r, line| {
        let first = r.one_of(&spaces(line)) + 1;
        if first < line.len() {
            line[first..first + 8].copy_from_slice(b"00000002");
        }
    },
    // Another separation of the operands.
    |r, line| {
        let space = r.one_of(&spaces(line));
        let text = r.one_of(&["  ", "\t", ",", "", " \t"]);
        line.splice(space..space + 1, text.bytes());
    },
    // Something before or after the call.
    |r, line| line.insert(0, r.one_of(b" \t")),
    |r, line| line.push(r.one_of(b" \t\r")),
    // Too long a line, and one just not too long, of good or of bad operands.
    |r, line| {
        let length = LONGEST - 1 + r.below(3) + if r.once_in(4) { r.below(200_000) } else { 0 };
        let text = r.one_of(&[" 3f800000", "0"]);
        line.extend(text.bytes().cycle().take(length.saturating_sub(line.len())));
    },
];

/// Where the name of a well-formed line ends.
fn name_end(line: &[u8]) -> usize {
    line.iter().position(|&b| b == b' ').unwrap_or(line.len())
}

/// The places of the spaces; the last byte's where there are none.
fn spaces(line: &[u8]) -> Vec<usize> {
    let found: Vec<usize> = (0..line.len()).filter(|&i| line[i] == b' ').collect();
    if found.is_empty() {
        vec![line.len() - 1]
    } else {
        found
    }
}

/// Puts one of the given bytes in the place of a digit (of the name's last letter, where there are no operands).
fn set_digit(r: &mut Random, line: &mut [u8], bytes: &[u8]) {
    let first = (name_end(line) + 1).min(line.len() - 1);
    let place = first + r.below(line.len() - first);
    line[place] = r.one_of(bytes);
}
