//! Why the nodes of a rule or a definition make no tree.

use super::fields::{of_line, Field};
use super::lines::Lines;
use crate::tree::DEEPEST_RULE;

/// What can be seen of a tree at its node or at its end.
pub fn no_tree(lines: &Lines, place: usize) -> Vec<String> {
    let parted = parted_by_space(lines, place + 1);
    let seen = match lines.fields(place)[0] {
        b"X" => return vec![too_deep("text")],
        b"N" => match not_taken(lines, place) {
            Some(operand) => return vec![operand],
            None => at_end(lines, place),
        },
        _ if parted.is_some() => None,
        b"R" => Some("the rule has no X line and no N line".to_string()),
        _ => Some("the definition has no N line".to_string()),
    };
    parted.into_iter().chain(seen).collect()
}

fn too_deep(what: &str) -> String {
    format!("the {what} is over {DEEPEST_RULE} deep, called bodies counted in")
}

/// A line of a rule that is none, as a space comes after its letter.
pub fn parted_by_space(lines: &Lines, place: usize) -> Option<String> {
    let letter = match lines.bytes(place) {
        [letter @ (b'X' | b'N'), b' ', ..] => char::from(*letter),
        _ => return None,
    };
    Some(format!(
        "line {place} begins with {letter} and a space: one tab comes after the {letter}"
    ))
}

/// The nodes that an N line takes as operands.
fn operands(lines: &Lines, place: usize) -> Vec<usize> {
    let split = lines.fields(place);
    let fields = of_line(&split).unwrap_or_default();
    let behind_form = fields.iter().zip(&split[1..]).skip(2);
    let nodes = behind_form.filter(|(field, _)| **field == Field::Node);
    let numbers = nodes.map(|(_, spelt)| std::str::from_utf8(spelt).ok()?.parse().ok());
    numbers.flatten().collect()
}

/// The first N line from one line to before another that takes a node.
fn user(lines: &Lines, node: usize, places: std::ops::Range<usize>) -> Option<usize> {
    let mut places = places;
    places.find(|line| operands(lines, *line).contains(&node))
}

/// An operand of an N line that can't be taken.
fn not_taken(lines: &Lines, place: usize) -> Option<String> {
    let first = lines.head(place)? + 1;
    let own = place - first;
    let taken = operands(lines, place);
    taken.iter().enumerate().find_map(|(position, node)| {
        if *node >= own {
            return Some(format!(
                "node {node} is not smaller than {own}, as an operand is"
            ));
        }
        let twice = taken[..position].contains(node).then_some(place);
        let user = user(lines, *node, first..place).or(twice)?;
        Some(format!(
            "node {node}, {}, is used already by {}: write it again",
            lines.named(first + node),
            lines.named(user)
        ))
    })
}

/// A node that nothing takes, or else too many levels.
fn at_end(lines: &Lines, place: usize) -> Option<String> {
    let first = lines.head(place)? + 1;
    let unused = (first..place).find(|line| user(lines, line - first, first..place + 1).is_none());
    Some(match unused {
        Some(line) => format!(
            "node {} is used by no other, {}",
            line - first,
            lines.named(line)
        ),
        None => too_deep("tree"),
    })
}
