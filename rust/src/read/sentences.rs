//! Rules in OCL text: what a text says, if it is a sentence. What is begun and waits
//! for an operand stands in a list, since a text can nest thousands of `let`s.

use crate::tree::Form;
use crate::types::Kind;

const MOST_MEMBERS: usize = 4;

/// A node of a text, its operands by their numbers.
pub struct Shape {
    pub form: Form,
    pub operands: Vec<usize>,
}

/// The nodes of a text, operands first and left to right, and whether a number or a
/// type in it is outside its limits.
pub struct Sentence {
    pub shapes: Vec<Shape>,
    pub over: bool,
}

/// How tightly a sign binds.
#[derive(Clone, Copy, PartialEq, Eq, PartialOrd, Ord)]
pub(super) enum Level {
    Or,
    And,
    Comparison,
    Sum,
    Product,
}

/// What waits for an operand.
pub(super) enum Waiting {
    Not,
    /// A two-sided sign, for its right side.
    Sign {
        form: Form,
        level: Level,
        left: usize,
    },
    Value {
        variable: u8,
    },
    Body {
        variable: u8,
        value: usize,
    },
    Bracket,
    /// An `if`, with the parts that it has.
    Condition(Vec<usize>),
    Members(Kind, Vec<usize>),
    /// An `iter`, for what it starts with.
    Start {
        form: Form,
        source: usize,
    },
    /// A step, for the last operand in its brackets.
    Argument(Form, Vec<usize>),
}

/// What comes after an operand.
pub(super) enum Next {
    /// The operand is part of a longer one.
    Longer(usize),
    /// Another operand.
    Another,
    End,
}

pub(super) struct Parser<'t> {
    pub(super) tokens: std::slice::Iter<'t, &'t [u8]>,
    shapes: Vec<Shape>,
    /// The innermost last.
    pub(super) waiting: Vec<Waiting>,
    pub(super) over: bool,
}

/// What a text says, if it is a sentence.
pub fn sentence(tokens: &[&[u8]]) -> Option<Sentence> {
    let mut parser = Parser::new(tokens);
    parser.read()?;
    Some(Sentence {
        shapes: parser.shapes,
        over: parser.over,
    })
}

/// How many tokens of a text that is no sentence can be read before the one at which it
/// fails, or all of them where it ends too early.
pub fn read_up_to(tokens: &[&[u8]]) -> usize {
    // A token that no text has stands behind the last one, so that none is missing.
    let ended: Vec<&[u8]> = tokens.iter().copied().chain([b"".as_slice()]).collect();
    let mut parser = Parser::new(&ended);
    parser.read();
    ended.len() - parser.tokens.len() - 1
}

fn sign(token: &[u8]) -> Option<(Form, Level)> {
    Some(match token {
        b"or" => (Form::Or, Level::Or),
        b"and" => (Form::And, Level::And),
        b"=" => (Form::Eq, Level::Comparison),
        b"<" => (Form::Less(None), Level::Comparison),
        b"+" => (Form::Plus(None), Level::Sum),
        b"-" => (Form::Minus(None), Level::Sum),
        b"*" => (Form::Times(None), Level::Product),
        b"div" => (Form::Div, Level::Product),
        b"mod" => (Form::Mod, Level::Product),
        b"/" => (Form::Over, Level::Product),
        _ => return None,
    })
}

impl<'t> Parser<'t> {
    fn new(tokens: &'t [&'t [u8]]) -> Parser<'t> {
        Parser {
            tokens: tokens.iter(),
            shapes: Vec::new(),
            waiting: Vec::new(),
            over: false,
        }
    }
}

impl Parser<'_> {
    fn read(&mut self) -> Option<()> {
        loop {
            let Some(mut operand) = self.begin()? else {
                continue;
            };
            loop {
                match self.go_on(operand)? {
                    Next::Longer(longer) => operand = longer,
                    Next::Another => break,
                    Next::End => return Some(()),
                }
            }
        }
    }

    /// The token, which must come next.
    pub(super) fn expect(&mut self, token: &[u8]) -> Option<()> {
        (*self.tokens.next()? == token).then_some(())
    }

    pub(super) fn peek(&self) -> Option<&[u8]> {
        self.tokens.as_slice().first().copied()
    }

    pub(super) fn put(&mut self, form: Form, operands: Vec<usize>) -> usize {
        self.shapes.push(Shape { form, operands });
        self.shapes.len() - 1
    }

    /// What comes after an operand: a step, a sign, or the end of what waits for it.
    fn go_on(&mut self, operand: usize) -> Option<Next> {
        let next = self.peek().unwrap_or_default();
        if let Some((form, level)) = sign(next) {
            self.tokens.next();
            return self.sign(form, level, operand);
        }
        match next {
            b"." => {
                self.tokens.next();
                self.step(operand)
            }
            b"->" => {
                self.tokens.next();
                self.collection_step(operand)
            }
            _ => self.end(operand),
        }
    }

    /// A sign leans left, so those before it that bind as tightly have both their
    /// sides. Of comparisons there is one at most.
    fn sign(&mut self, form: Form, level: Level, operand: usize) -> Option<Next> {
        let compares = level == Level::Comparison;
        let tighter = if compares { Level::Sum } else { level };
        let left = self.joined(tighter, operand);
        if compares && self.innermost_level() == Some(level) {
            return None;
        }
        self.waiting.push(Waiting::Sign { form, level, left });
        Some(Next::Another)
    }

    fn innermost_level(&self) -> Option<Level> {
        match self.waiting.last() {
            Some(Waiting::Sign { level, .. }) => Some(*level),
            _ => None,
        }
    }

    /// The operand in the `not`s and the signs around it that bind so tightly.
    fn joined(&mut self, least: Level, mut operand: usize) -> usize {
        while let Some(waiting) = self.waiting.pop() {
            operand = match waiting {
                Waiting::Not => self.put(Form::Not, vec![operand]),
                Waiting::Sign { form, level, left } if level >= least => {
                    self.put(form, vec![left, operand])
                }
                outer => {
                    self.waiting.push(outer);
                    break;
                }
            }
        }
        operand
    }

    /// A whole expression has ended: what waits for it must go on.
    fn end(&mut self, operand: usize) -> Option<Next> {
        let operand = self.joined(Level::Or, operand);
        let Some(waiting) = self.waiting.pop() else {
            return self.tokens.next().is_none().then_some(Next::End);
        };
        if let Waiting::Body { variable, value } = waiting {
            // A body ends before whatever does not go on with it.
            let whole = self.put(Form::Let(variable), vec![value, operand]);
            return Some(Next::Longer(whole));
        }
        let longer = match (waiting, *self.tokens.next()?) {
            (Waiting::Value { variable }, b"in") => {
                let value = operand;
                return self.wait(Waiting::Body { variable, value });
            }
            (Waiting::Bracket, b")") => operand,
            (Waiting::Condition(parts), token) => return self.part(parts, operand, token),
            (Waiting::Members(kind, members), token) => {
                return self.member(kind, members, operand, token)
            }
            (Waiting::Start { form, source }, b"|") => {
                return self.wait(Waiting::Argument(form, vec![source, operand]));
            }
            (Waiting::Argument(form, mut operands), b")") => {
                operands.push(operand);
                self.put(form, operands)
            }
            _ => return None,
        };
        Some(Next::Longer(longer))
    }

    pub(super) fn wait(&mut self, waiting: Waiting) -> Option<Next> {
        self.waiting.push(waiting);
        Some(Next::Another)
    }

    fn part(&mut self, mut parts: Vec<usize>, part: usize, token: &[u8]) -> Option<Next> {
        parts.push(part);
        match (parts.len(), token) {
            (1, b"then") | (2, b"else") => self.wait(Waiting::Condition(parts)),
            (3, b"endif") => Some(Next::Longer(self.put(Form::If, parts))),
            _ => None,
        }
    }

    fn member(
        &mut self,
        kind: Kind,
        mut members: Vec<usize>,
        member: usize,
        token: &[u8],
    ) -> Option<Next> {
        members.push(member);
        match token {
            b"," if members.len() < MOST_MEMBERS => self.wait(Waiting::Members(kind, members)),
            b"}" => Some(Next::Longer(self.put(Form::Coll(kind), members))),
            _ => None,
        }
    }
}
