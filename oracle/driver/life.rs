//! Lines on states. A state lives through episodes: each begins with a constructor or a state built by hand, and is
//! short and of odd operands, or long and of ordinary ones, so that the state stays finite through thousands of
//! updates. After an odd operand an episode soon ends: what came of it stays for a while, then the state is new.

use crate::generator::{Line, Maker};
use crate::kinds::Memory;
use crate::random::Random;
use crate::times::ZeroSums;

/// A call's name, less that of its type, and the kinds of its operands (see `kinds`).
pub type Shape = (&'static str, &'static str);

pub struct Life {
    /// The name of the type.
    pub name: &'static str,
    /// The ways to begin an episode, each in one or more lines.
    pub begin: &'static [&'static [Shape]],
    pub often: &'static [Shape],
    pub seldom: &'static [Shape],
    /// Whether it goes on with numbers where tau + dt is zero; of no interest where it has neither.
    pub outlives_zero_sums: bool,
}

/// Lines on as many states as lives are given, in no order. A life's place in the list is the lane of a bank.
pub fn lives(lives: &[&'static Life]) -> Box<Maker> {
    let mut episodes: Vec<Episode> =
        lives.iter().enumerate().map(|(lane, life)| Episode::new(life, lane as u32)).collect();
    Box::new(move |r: &mut Random, to: &mut Line| {
        let place = r.below(episodes.len());
        episodes[place].line(r, to);
    })
}

struct Episode {
    life: &'static Life,
    memory: Memory,
    /// The lines of its beginning that are still to come, then how many others.
    beginning: &'static [Shape],
    left: usize,
    /// One operand in so many is odd.
    odd_one_in: usize,
    operands: Vec<u32>,
}

impl Episode {
    fn new(life: &'static Life, lane: u32) -> Self {
        let memory = Memory::new(lane, ZeroSums::None);
        Episode { life, memory, beginning: &[], left: 0, odd_one_in: 1, operands: Vec::new() }
    }

    fn line(&mut self, r: &mut Random, to: &mut Line) {
        let first = self.beginning.is_empty() && self.left == 0;
        if first {
            self.begin(r);
        }
        let (call, kinds) = self.next_shape(r);
        self.operands.clear();
        for kind in kinds.bytes() {
            if r.once_in(self.odd_one_in) {
                self.memory.odd(r, kind, &mut self.operands);
                self.left = self.left.min(10 + r.below(50));
            } else {
                self.memory.ordinary(r, kind, &mut self.operands);
            }
        }
        if first {
            self.memory.keep_first(&self.operands);
        }
        to.call(&format!("{}.{call}", self.life.name), &self.operands);
    }

    /// The long episodes are few, but most lines are theirs.
    fn begin(&mut self, r: &mut Random) {
        self.beginning = r.one_of(self.life.begin);
        (self.left, self.odd_one_in) = match r.below(40) {
            0 => (1_000 + r.below(4_000), 3_000),
            1..=4 => (100 + r.below(200), 100),
            _ => (1 + r.below(30), r.one_of(&[2, 4, 12, 40])),
        };
        self.memory.forget(self.zero_sums());
    }

    fn is_short(&self) -> bool {
        self.odd_one_in < 100
    }

    /// In a long episode only such as leave numbers, so that the rest of it means something.
    fn zero_sums(&self) -> ZeroSums {
        match (self.is_short(), self.life.outlives_zero_sums) {
            (true, _) => ZeroSums::All,
            (false, true) => ZeroSums::Opposite,
            (false, false) => ZeroSums::None,
        }
    }

    fn next_shape(&mut self, r: &mut Random) -> Shape {
        if let Some((&shape, rest)) = self.beginning.split_first() {
            self.beginning = rest;
            return shape;
        }
        self.left -= 1;
        // In a short episode every call has to come soon.
        let seldom_one_in = if self.is_short() { 3 } else { 16 };
        let shapes = if r.once_in(seldom_one_in) { self.life.seldom } else { self.life.often };
        r.one_of(shapes)
    }
}
