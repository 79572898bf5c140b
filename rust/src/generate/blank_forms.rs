//! Forms of trees that are undefined, and the nodes at which undefined arises.

use super::blanks::{Gives, Growth, ALL};
use Gives::*;

/// The name of the row of class 0 that gives it.
fn name(gives: Gives) -> u8 {
    match gives {
        Number => 5,
        Object => 6,
        Set => 7,
        Truth => 8,
    }
}

impl Growth<'_> {
    /// A form that gives it and no other.
    pub(super) fn own(&mut self, gives: Gives, depth: usize) -> usize {
        match gives {
            Truth => self.truth(depth),
            Number => self.number(depth - 1),
            Object => self.object(depth - 1),
            Set => self.set(depth - 1),
        }
    }

    fn truth(&mut self, depth: usize) -> usize {
        let below = depth - 1;
        match self.random.below(14) {
            0 => {
                let operand = self.blank(Truth, below);
                self.line("not %", &[operand])
            }
            1..=5 => {
                let words = *self.random.pick(&["and % %", "or % %"]);
                self.pair(words, [Truth; 2], below)
            }
            6 => {
                let of = *self.random.pick(&ALL);
                self.pair("eq % %", [of; 2], below)
            }
            7 => self.pair("less % %", [Number; 2], below),
            8 => self.pair("includes % %", [Set, Number], below),
            9 => {
                let quotient = self.pair("over % %", [Number; 2], below);
                let half = self.line("real r3fe0000000000000", &[]);
                self.line("less % %", &[quotient, half])
            }
            10 => {
                let hidden = *self.random.pick(&ALL);
                let operand = self.blank(hidden, below);
                self.line("isUndef %", &[operand])
            }
            _ => self.quantified(depth),
        }
    }

    fn quantified(&mut self, depth: usize) -> usize {
        let source = self.gathered(depth);
        self.bound += 1;
        let member = self.bound;
        let body = self.body(Truth, depth);
        self.bound -= 1;
        let form = *self.random.pick(&["forAll", "exists"]);
        self.line(&format!("{form} % {member} %"), &[source, body])
    }

    fn number(&mut self, below: usize) -> usize {
        match self.random.below(8) {
            0 => {
                let set = self.blank(Set, below);
                self.line("size %", &[set])
            }
            1 => {
                let object = self.blank(Object, below);
                self.line("attr % 5", &[object])
            }
            _ => {
                let forms = ["plus % %", "minus % %", "times % %", "div % %", "mod % %"];
                let words = *self.random.pick(&forms);
                self.pair(words, [Number; 2], below)
            }
        }
    }

    fn object(&mut self, below: usize) -> usize {
        let object = self.blank(Object, below);
        let words = *self.random.pick(&["attr % 6", "as % 1", "as % 0"]);
        self.line(words, &[object])
    }

    fn set(&mut self, below: usize) -> usize {
        match self.random.below(6) {
            0 => self.pair("union % %", [Set; 2], below),
            1 => self.pair("including % %", [Set, Number], below),
            2 => {
                let members = [0; 4].map(|_| match self.random.below(3) {
                    0 => self.blank(Number, below),
                    _ => self.plain(Number),
                });
                self.line("coll S % % % %", &members)
            }
            3 => {
                let objects = self.pair("coll B % %", [Object; 2], below);
                let values = self.line("collect % 5", &[objects]);
                self.line("asSet %", &[values])
            }
            _ => {
                let set = self.blank(Set, below);
                let words = *self.random.pick(&["asBag %", "asSequence %", "asSet %"]);
                let changed = self.line(words, &[set]);
                self.line("asSet %", &[changed])
            }
        }
    }

    /// Where undefined arises, or may.
    pub(super) fn source(&mut self, gives: Gives) -> usize {
        if self.random.one_in(3) {
            let object = self.plain(Object);
            return self.line(&format!("attr % {}", name(gives)), &[object]);
        }
        match gives {
            Truth if self.random.one_in(2) => self.quotients(),
            Truth if self.random.one_in(3) => {
                let [one, zero] = ["int 1", "int 0"].map(|words| self.line(words, &[]));
                let quotient = self.line("over % %", &[one, zero]);
                let other = self.line("int 1", &[]);
                self.line("less % %", &[quotient, other])
            }
            Number if self.random.one_in(12) => {
                let [most, one] = ["int 2147483647", "int 1"].map(|words| self.line(words, &[]));
                self.line("plus % %", &[most, one])
            }
            Number if self.random.one_in(2) => self.division(),
            Truth | Number => self.line("undef", &[]),
            Object => {
                let own = self.plain(Object);
                let name = *self.random.pick(&[6, 9]);
                let object = self.line(&format!("attr % {name}"), &[own]);
                self.line("as % 1", &[object])
            }
            Set if self.random.one_in(8) => self.overfull(),
            Set => {
                let all = self.line("all 0", &[]);
                let values = self.line("collect % 5", &[all]);
                self.line("asSet %", &[values])
            }
        }
    }

    /// A division by zero, or by what may be zero.
    fn division(&mut self) -> usize {
        let words = *self.random.pick(&["div % %", "mod % %"]);
        let left = self.plain(Number);
        let right = match self.random.below(3) {
            0 => self.plain(Number),
            _ => self.line("int 0", &[]),
        };
        self.line(words, &[left, right])
    }

    /// A quantifier over them, undefined for zeros, that the others may decide.
    fn quotients(&mut self) -> usize {
        let numbers = self.numbers();
        let two = self.line("int 2", &[]);
        let member = self.line("var 14", &[]);
        let quotient = self.line("div % %", &[two, member]);
        let bound = *self.random.pick(&["int 0", "int 2", "int 9"]);
        let bound = self.line(bound, &[]);
        let body = self.line("less % %", &[quotient, bound]);
        let form = *self.random.pick(&["forAll", "exists"]);
        self.line(&format!("{form} % 14 %"), &[numbers, body])
    }

    /// A Set of a Sequence that is doubled until it is too large: a stop, and no origin.
    fn overfull(&mut self) -> usize {
        const FIRST: usize = 9;
        let values: Vec<usize> = (0..5)
            .map(|times| match times {
                0 => self.numbers(),
                _ => self.twice(FIRST + times - 1),
            })
            .collect();
        let mut body = self.twice(FIRST + 4);
        for (times, value) in values.into_iter().enumerate().rev() {
            body = self.line(&format!("let {} % %", FIRST + times), &[value, body]);
        }
        self.line("asSet %", &[body])
    }

    fn twice(&mut self, variable: usize) -> usize {
        let both = [0; 2].map(|_| self.line(&format!("var {variable}"), &[]));
        self.line("union % %", &both)
    }
}
