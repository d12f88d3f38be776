//! The text form of the calls, as CALLS.md has it: reading a line, writing its answer.

use crate::panics::silence_awaited;
use crate::parts;
pub use holsatus::fields::written;
use holsatus::fields::Fields;
use std::collections::HashMap;
use std::sync::Once;

/// A line of more bytes than this is malformed.
pub const LONGEST: usize = 2_000;

/// The most samples of a run, and the most room for their answers.
pub const LONGEST_RUN: usize = 64;

/// The bytes of an operand or a result: a space and eight digits.
const WORD: usize = 9;

/// The operands of a call whose form has been judged, each read as what it is.
pub struct Operands<'a>(&'a [u32]);

impl Operands<'_> {
    /// How many there are; of interest where the form leaves it open.
    #[inline]
    pub fn count(&self) -> usize {
        self.0.len()
    }

    #[inline]
    pub fn number(&self, i: usize) -> u32 {
        self.0[i]
    }

    #[inline]
    pub fn flag(&self, i: usize) -> bool {
        self.0[i] == 1
    }

    /// NaNs of any pattern are the one NaN.
    #[inline]
    pub fn float(&self, i: usize) -> f32 {
        f32::from_bits(written(f32::from_bits(self.0[i])))
    }

    /// The float after the last one that a call must have, where it is given.
    #[inline]
    pub fn optional_float(&self, i: usize) -> Option<f32> {
        (i < self.0.len()).then(|| self.float(i))
    }

    /// A value of as many words as stand from that operand on.
    pub fn fields<T: Fields>(&self, from: usize) -> T {
        T::read(&mut self.0[from..].iter().copied())
    }
}

/// Writes the answer to one call. A call makes exactly one of `refusal` (then its results) and `none`.
pub struct Answer<'a>(&'a mut Vec<u8>);

impl Answer<'_> {
    /// The refusal's number, 0 where nothing is refused.
    #[inline]
    pub fn refusal(&mut self, number: u32) -> &mut Self {
        if number >= 10 {
            self.0.push(b'0' + (number / 10) as u8);
        }
        self.0.push(b'0' + (number % 10) as u8);
        self
    }

    #[inline]
    pub fn float(&mut self, y: f32) -> &mut Self {
        self.number(written(y))
    }

    #[inline]
    pub fn number(&mut self, n: u32) -> &mut Self {
        word(n, self.0);
        self
    }

    pub fn fields(&mut self, of: &impl Fields) -> &mut Self {
        of.write(&mut |n| word(n, self.0));
        self
    }

    /// The Rust has no answer to this call.
    pub fn none(&mut self) {
        self.0.push(b'-');
    }
}

/// One call of a part whose states are an `S`.
pub struct Call<S: 'static> {
    pub name: &'static str,
    /// A letter an operand: f a float, n a number, b a bool, l a lane that there is, r a room. A final `*` is any number
    /// more of the letter before it, a final `~` says that there are as many of it as a run may have, or fewer, or none,
    /// a final `?` that the operand before it may be left out.
    pub form: &'static str,
    pub run: fn(&mut S, &Operands, &mut Answer),
}

/// Calls and the state that they work on.
pub struct Table<S: 'static> {
    pub state: S,
    pub calls: &'static [Call<S>],
}

/// A table whose kind of state is not named.
pub trait Calls {
    /// The names and forms of the calls, in the order that `run` knows them by.
    fn calls(&self) -> Vec<(&'static str, &'static str)>;
    fn run(&mut self, call: usize, operands: &Operands, answer: &mut Answer);
}

impl<S> Calls for Table<S> {
    fn calls(&self) -> Vec<(&'static str, &'static str)> {
        self.calls.iter().map(|call| (call.name, call.form)).collect()
    }

    fn run(&mut self, call: usize, operands: &Operands, answer: &mut Answer) {
        (self.calls[call].run)(&mut self.state, operands, answer);
    }
}

/// Where a call is to be found, and its form.
#[derive(Clone, Copy)]
struct Place {
    id: usize,
    table: usize,
    call: usize,
    form: &'static str,
}

pub struct Driver {
    tables: Vec<Box<dyn Calls>>,
    names: Vec<&'static str>,
    places: HashMap<&'static [u8], Place>,
    operands: Vec<u32>,
}

impl Driver {
    pub fn new() -> Self {
        static HOOK: Once = Once::new();
        HOOK.call_once(silence_awaited);
        let mut driver = Driver {
            tables: parts::ALL.iter().flat_map(|part| (part.tables)()).collect(),
            names: Vec::new(),
            places: HashMap::new(),
            operands: Vec::new(),
        };
        for (table, calls) in driver.tables.iter().enumerate() {
            for (call, (name, form)) in calls.calls().into_iter().enumerate() {
                let id = driver.names.len();
                driver.names.push(name);
                driver.places.insert(name.as_bytes(), Place { id, table, call, form });
            }
        }
        driver
    }

    /// The names of all calls; a call's place in this list is the number by which `answer` tells it.
    pub fn names(&self) -> &[&'static str] {
        &self.names
    }

    /// Appends the answer to a line (which comes without its line feed), without a line feed.
    /// Gives the call's number, and nothing where the line is malformed.
    pub fn answer(&mut self, line: &[u8], out: &mut Vec<u8>) -> Option<usize> {
        let Some(place) = self.judge(line) else {
            out.push(b'?');
            return None;
        };
        self.tables[place.table].run(place.call, &Operands(&self.operands), &mut Answer(out));
        Some(place.id)
    }

    /// The operands of the line that was answered last.
    pub fn operands(&self) -> &[u32] {
        &self.operands
    }

    /// The call that a line makes; its operands are then in `self.operands`.
    fn judge(&mut self, line: &[u8]) -> Option<Place> {
        self.operands.clear();
        if line.len() > LONGEST {
            return None;
        }
        let end = line.iter().position(|&b| b == b' ').unwrap_or(line.len());
        let place = *self.places.get(&line[..end])?;
        let words = line[end..].chunks_exact(WORD);
        if !words.remainder().is_empty() {
            return None;
        }
        for word in words {
            self.operands.push(operand(word)?);
        }
        fits(place.form.as_bytes(), &self.operands).then_some(place)
    }
}

impl Default for Driver {
    fn default() -> Self {
        Self::new()
    }
}

/// A space and eight lowercase hex digits.
#[inline]
fn operand(word: &[u8]) -> Option<u32> {
    let (space, digits) = word.split_first()?;
    if *space != b' ' {
        return None;
    }
    let mut n = 0;
    for digit in digits {
        let value = match digit {
            b'0'..=b'9' => digit - b'0',
            b'a'..=b'f' => digit - b'a' + 10,
            _ => return None,
        };
        n = n << 4 | value as u32;
    }
    Some(n)
}

/// Whether the operands are as many, and of such kinds, as the form says.
#[inline]
fn fits(form: &[u8], operands: &[u32]) -> bool {
    let (letters, least, most) = match form {
        [letters @ .., b'*'] => (letters, letters.len() - 1, usize::MAX),
        [letters @ .., b'~'] => (letters, letters.len() - 1, letters.len() - 1 + LONGEST_RUN),
        [letters @ .., b'?'] => (letters, letters.len() - 1, letters.len()),
        letters => (letters, letters.len(), letters.len()),
    };
    (least..=most).contains(&operands.len()) && letters.iter().zip(operands).all(|(&letter, &n)| n <= largest(letter))
}

/// The largest operand of that letter.
#[inline]
fn largest(letter: u8) -> u32 {
    match letter {
        b'b' => 1,
        b'l' => 7,
        b'r' => LONGEST_RUN as u32,
        _ => u32::MAX,
    }
}

/// Appends a space and eight digits.
#[inline]
pub fn word(n: u32, out: &mut Vec<u8>) {
    let mut text = [b' '; WORD];
    for (i, digit) in text[1..].iter_mut().enumerate() {
        *digit = b"0123456789abcdef"[(n >> (28 - 4 * i) & 15) as usize];
    }
    out.extend_from_slice(&text);
}
