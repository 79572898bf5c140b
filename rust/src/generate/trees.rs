//! Sheets whose definitions and rules mostly type.

use super::definitions::{Callable, MOST_DEFINITIONS};
use super::draft::Draft;
use super::random::Random;
use super::rules::Growth;
use super::world::{any_type, spell, spelt_type, world, Scale};
use crate::model::Model;
use crate::tree::DEEPEST_RULE;
use crate::types::{Type, DEEPEST};

/// The nodes of all definitions and rules.
const MOST_NODES: usize = 768;

/// A sheet in the making.
struct Making<'g> {
    random: &'g mut Random,
    model: Model,
    text: String,
    /// The nodes that it may still have.
    left: usize,
    callable: Vec<Callable>,
}

/// How deep and large a tree gets at most, and whether faults are mixed in.
struct Plan {
    depth: usize,
    budget: usize,
    faulty: bool,
}

pub fn grown(random: &mut Random) -> Vec<u8> {
    let (scale, rules, budget) = match random.below(20) {
        0 => (Scale::LIMIT, 3, 12),
        1 => (Scale::SMALL, 64, 10),
        2..=4 => (Scale::SMALL, 2, 300),
        _ => (Scale::SMALL, 5, 40),
    };
    let model = world(random, scale);
    let faulty = random.one_in(3);
    let mut making = Making {
        text: spell(&model),
        random,
        model,
        left: MOST_NODES,
        callable: Vec::new(),
    };
    making.definitions(budget, faulty);
    making.rules(rules, budget, faulty);
    making.text.into_bytes()
}

impl Making<'_> {
    /// Definitions, in half of the sheets.
    fn definitions(&mut self, budget: usize, faulty: bool) {
        let (count, budget) = match self.random.below(8) {
            0..=3 => (0, 1),
            4 => (self.random.between(1, MOST_DEFINITIONS), 6),
            _ => (self.random.between(1, 4), budget.min(40)),
        };
        // Else hardly a rule would be typed where there are faults.
        let faulty = faulty && self.random.one_in(3);
        for number in 0..count {
            let most = if self.random.one_in(3) {
                DEEPEST_RULE
            } else {
                5
            };
            let depth = self.random.between(1, most);
            let tree = self.tree(Plan {
                depth,
                budget,
                faulty,
            });
            let given = if self.random.one_in(2) && tree.found.depth() <= DEEPEST {
                tree.found
            } else {
                tree.wanted
            };
            let class = tree.context;
            let head = format!("D\t{number}\t{class}\t{}\n", spelt_type(&given));
            if !self.put(&head, &tree.draft) {
                return;
            }
            self.callable.push(Callable {
                class,
                ty: given,
                depth,
            });
        }
    }

    fn rules(&mut self, most: usize, budget: usize, faulty: bool) {
        for number in 0..self.random.between(1, most) {
            let depth = self.random.between(1, DEEPEST_RULE);
            let tree = self.tree(Plan {
                depth,
                budget,
                faulty,
            });
            let head = format!("R\t{number}\t{}\n", tree.context);
            if !self.put(&head, &tree.draft) {
                return;
            }
        }
    }

    /// A line and the node lines behind it, if there is room for them.
    fn put(&mut self, head: &str, draft: &Draft) -> bool {
        let nodes = draft.lines.len();
        if nodes > self.left {
            return false;
        }
        self.left -= nodes;
        self.text += head;
        self.text += &draft.spell(self.random);
        true
    }

    /// A tree for a context class that mostly has objects.
    fn tree(&mut self, plan: Plan) -> Tree {
        let (random, model) = (&mut *self.random, &self.model);
        let context = if model.objects.is_empty() || random.one_in(8) {
            random.below(model.classes.0.len()) as u8
        } else {
            let class = *random.pick(&model.objects);
            let upward: Vec<u8> = model.classes.upward(class).collect();
            *random.pick(&upward)
        };
        let wanted = match random.below(4) {
            0 => Type::Bool,
            _ => any_type(random, &model.classes, DEEPEST),
        };
        let mut growth = Growth {
            random,
            model,
            callable: &self.callable,
            context,
            budget: plan.budget,
            faulty: plan.faulty,
            burst: 0,
            environment: Default::default(),
            draft: Draft::default(),
        };
        let (_, found) = growth.grow(&wanted, plan.depth);
        Tree {
            context,
            wanted,
            found,
            draft: growth.draft,
        }
    }
}

/// A rule, or a definition, in the making.
struct Tree {
    context: u8,
    wanted: Type,
    /// The type that came out, mostly below the one wanted.
    found: Type,
    draft: Draft,
}
