//! A rule in the making: lines whose operands are not numbered yet.

use super::random::Random;
use std::collections::HashMap;

/// What stands in a line after the node number.
pub enum Piece {
    Word(String),
    /// An operand, by its position in the draft.
    Operand(usize),
}

/// Operands come before their users, and the root last.
#[derive(Default)]
pub struct Draft {
    pub lines: Vec<Vec<Piece>>,
}

impl Draft {
    pub fn put(&mut self, line: Vec<Piece>) -> usize {
        self.lines.push(line);
        self.lines.len() - 1
    }

    /// A line of words and operands, an operand written as `%` in the words.
    pub fn line(&mut self, words: &str, operands: &[usize]) -> usize {
        let mut operands = operands.iter();
        let line = words
            .split(' ')
            .map(|word| match word {
                "%" => Piece::Operand(*operands.next().expect("an operand for each %")),
                _ => Piece::Word(word.to_string()),
            })
            .collect();
        assert!(operands.next().is_none());
        self.put(line)
    }

    /// The N lines, nodes numbered in one of the orders that put operands first.
    pub fn spell(&self, random: &mut Random) -> String {
        let order = if random.one_in(3) {
            (0..self.lines.len()).collect()
        } else {
            self.any_order(random)
        };
        let numbers: HashMap<usize, usize> = order
            .iter()
            .enumerate()
            .map(|(number, position)| (*position, number))
            .collect();
        let mut text = String::new();
        for (number, position) in order.iter().enumerate() {
            text += &format!("N\t{number}");
            for piece in &self.lines[*position] {
                match piece {
                    Piece::Word(word) => text += &format!("\t{word}"),
                    Piece::Operand(operand) => text += &format!("\t{}", numbers[operand]),
                }
            }
            text.push('\n');
        }
        text
    }

    fn any_order(&self, random: &mut Random) -> Vec<usize> {
        let mut user = vec![None; self.lines.len()];
        let mut waits = vec![0; self.lines.len()];
        for (position, line) in self.lines.iter().enumerate() {
            for piece in line {
                if let Piece::Operand(operand) = piece {
                    user[*operand] = Some(position);
                    waits[position] += 1;
                }
            }
        }
        let mut ready: Vec<usize> = (0..self.lines.len())
            .filter(|position| waits[*position] == 0)
            .collect();
        let mut order = Vec::new();
        while !ready.is_empty() {
            let next = ready.swap_remove(random.below(ready.len()));
            order.push(next);
            if let Some(user) = user[next] {
                waits[user] -= 1;
                if waits[user] == 0 {
                    ready.push(user);
                }
            }
        }
        order
    }
}
