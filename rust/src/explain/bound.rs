//! What is bound in a run, and around it.

use super::runs::{spelt_short, Tree};
use crate::tree::{Form, Node};

impl Tree<'_> {
    /// What is bound anew in a run: a variable, or `self` in a called body.
    pub(super) fn bound(&self, at: usize) -> Option<String> {
        let above = self.runs[at].above?;
        let place = self.below(above).iter().position(|below| *below == at)?;
        let value = |at: usize| self.value(at).map(spelt_short);
        let first = || self.below(above).first().and_then(|first| value(*first));
        Some(match self.node(above).form {
            Form::Let(variable) if place == 1 => format!("v{variable} being {}", first()?),
            Form::Call(_) if place == 1 => format!("self being {}", first()?),
            Form::ForAll(variable) | Form::Exists(variable) if place >= 1 => {
                let (members, _) = self.turns(above);
                format!("v{variable} being {}", spelt_short(members.get(place - 1)?))
            }
            Form::Iter {
                member,
                accumulator,
                ..
            } if place >= 2 => {
                let (members, _) = self.turns(above);
                let member_is = spelt_short(members.get(place - 2)?);
                let so_far = value(self.below(above)[place - 1])?;
                format!("v{member} being {member_is} and v{accumulator} {so_far}")
            }
            _ => return None,
        })
    }

    /// What the variables and `self` of a part are, as far as they are bound around its run in
    /// a body or a call.
    pub fn bound_around(&self, at: usize, part: &Node) -> Vec<String> {
        let nodes = part.nodes();
        let is_in = |name: &str| {
            nodes.iter().any(|node| match node.form {
                Form::Var(variable) => name == format!("v{variable}"),
                Form::SelfObject => name == "self",
                _ => false,
            })
        };
        let mut seen: Vec<String> = Vec::new();
        let mut said = Vec::new();
        let above = std::iter::successors(Some(at), |at| self.runs[*at].above);
        for bound in above.filter_map(|at| self.bound(at)) {
            // Each name stands before its value, the second of an `iter` behind `and`.
            let names = bound.split(" and ").filter_map(|one| one.split(' ').next());
            let names: Vec<String> = names.map(str::to_string).collect();
            let is_meant = names.iter().any(|name| is_in(name));
            // One that is bound again further in is hidden.
            if is_meant && !names.iter().any(|name| seen.contains(name)) {
                said.push(bound.clone());
            }
            seen.extend(names);
            // A called body sees nothing of what is bound around the call.
            if bound.starts_with("self ") {
                break;
            }
        }
        said
    }
}
