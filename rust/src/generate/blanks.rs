//! Trees that are undefined, or may be for some objects.

use super::draft::Draft;
use super::random::Random;
use Gives::*;

/// What an expression gives.
#[derive(Clone, Copy, PartialEq, Eq)]
pub enum Gives {
    Truth,
    Number,
    Object,
    Set,
}
pub const ALL: [Gives; 4] = [Truth, Number, Object, Set];

impl Gives {
    pub fn ty(self) -> &'static str {
        match self {
            Truth => "Bool",
            Number => "Int",
            Object => "#0",
            Set => "S(Int)",
        }
    }
}

/// N lines of a tree.
pub fn tree(random: &mut Random, defined: &[Gives], gives: Gives, depth: usize) -> String {
    let mut growth = Growth {
        random,
        defined,
        draft: Draft::default(),
        bound: 0,
    };
    growth.blank(gives, depth);
    let Growth { random, draft, .. } = growth;
    draft.spell(random)
}

pub(super) struct Growth<'g> {
    pub(super) random: &'g mut Random,
    /// What the definitions give that can be called.
    defined: &'g [Gives],
    draft: Draft,
    /// Variables bound around what is grown; odd ones are Integers, even ones objects.
    pub(super) bound: usize,
}

impl Growth<'_> {
    pub(super) fn line(&mut self, words: &str, operands: &[usize]) -> usize {
        self.draft.line(words, operands)
    }

    /// The sign of two operands, one of which may be undefined, or both.
    pub(super) fn pair(&mut self, words: &str, of: [Gives; 2], depth: usize) -> usize {
        let which = self.random.below(5);
        let [left, right] = [0, 1].map(|side| {
            if which == side || which > 2 {
                self.blank(of[side], depth)
            } else {
                self.plain(of[side])
            }
        });
        self.line(words, &[left, right])
    }

    /// An expression that has a value, as far as those of rows go.
    pub(super) fn plain(&mut self, gives: Gives) -> usize {
        let variables: Vec<usize> = (1..=self.bound)
            .filter(|variable| {
                (gives == Number && variable % 2 == 1) || (gives == Object && variable % 2 == 0)
            })
            .collect();
        if !variables.is_empty() && self.random.one_in(2) {
            let variable = *self.random.pick(&variables);
            return self.line(&format!("var {variable}"), &[]);
        }
        let words = match gives {
            Truth => *self.random.pick(&["true", "false"]),
            Number => *self.random.pick(&["int 0", "int 1", "int 2"]),
            Object => "self",
            Set => return self.members(),
        };
        self.line(words, &[])
    }

    fn members(&mut self) -> usize {
        let count = self.random.below(4);
        let members: Vec<usize> = (0..count).map(|_| self.plain(Number)).collect();
        self.line(&format!("coll S{}", " %".repeat(count)), &members)
    }

    /// A Sequence of zeros, ones and twos.
    pub(super) fn numbers(&mut self) -> usize {
        let members = [0; 4].map(|_| {
            let number = self.random.below(3);
            self.line(&format!("int {number}"), &[])
        });
        self.line("coll Q % % % %", &members)
    }

    /// An expression that is undefined, or may be for some objects.
    pub(super) fn blank(&mut self, gives: Gives, depth: usize) -> usize {
        if depth == 0 {
            return self.source(gives);
        }
        match self.random.below(13) {
            0 => self.source(gives),
            1 => {
                let condition = if self.random.one_in(3) {
                    self.blank(Truth, depth - 1)
                } else {
                    self.plain(Truth)
                };
                let branches = [0, 1].map(|_| match self.random.below(4) {
                    0 => self.plain(gives),
                    _ => self.blank(gives, depth - 1),
                });
                self.line("if % % %", &[condition, branches[0], branches[1]])
            }
            2 => self.bound_to(gives, depth),
            3 | 12 => match self.called(gives) {
                Some(number) => {
                    let operand = match self.random.below(3) {
                        0 => self.blank(Object, depth - 1),
                        _ => self.plain(Object),
                    };
                    self.line(&format!("call % {number}"), &[operand])
                }
                None => self.iterated(gives, depth),
            },
            4 => self.iterated(gives, depth),
            _ => self.own(gives, depth),
        }
    }

    /// A definition that gives it, if there is one.
    fn called(&mut self, gives: Gives) -> Option<usize> {
        let numbers: Vec<usize> = (0..self.defined.len())
            .filter(|number| self.defined[*number] == gives)
            .collect();
        (!numbers.is_empty()).then(|| *self.random.pick(&numbers))
    }

    fn bound_to(&mut self, gives: Gives, depth: usize) -> usize {
        let of = if self.bound % 2 == 0 { Number } else { Object };
        let value = match self.random.below(2) {
            0 => self.blank(of, depth - 1),
            _ => self.plain(of),
        };
        self.bound += 1;
        let variable = self.bound;
        let body = self.blank(gives, depth - 1);
        self.bound -= 1;
        self.line(&format!("let {variable} % %"), &[value, body])
    }

    fn iterated(&mut self, gives: Gives, depth: usize) -> usize {
        let source = self.gathered(depth);
        let start = match self.random.below(3) {
            0 => self.blank(gives, depth - 1),
            _ => self.plain(gives),
        };
        self.bound += 1;
        let member = self.bound;
        let body = self.body(gives, depth);
        self.bound -= 1;
        let words = format!("iter % {member} 15 {} % %", gives.ty());
        self.line(&words, &[source, start, body])
    }

    /// What is gone through: Integers where the next variable is odd, else objects.
    pub(super) fn gathered(&mut self, depth: usize) -> usize {
        if self.bound % 2 == 1 {
            return self.line("all 0", &[]);
        }
        match self.random.below(4) {
            0 => self.blank(Set, depth - 1),
            1 => self.numbers(),
            _ => self.members(),
        }
    }

    /// A body that is undefined for some members, and may be for others.
    pub(super) fn body(&mut self, gives: Gives, depth: usize) -> usize {
        if self.random.one_in(2) || self.bound % 2 == 0 {
            return self.blank(gives, depth - 1);
        }
        let member = self.line(&format!("var {}", self.bound), &[]);
        let number = self.random.below(3);
        let number = self.line(&format!("int {number}"), &[]);
        let is = self.line("eq % %", &[member, number]);
        let then = self.blank(gives, depth - 1);
        let otherwise = self.plain(gives);
        self.line("if % % %", &[is, then, otherwise])
    }
}
