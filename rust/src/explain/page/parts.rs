//! The table of verdicts, and their explanations.

use super::super::lines::cut;
use super::anchors;
use super::escape::{text, words};
use crate::explain::verdicts::{Kind, Verdict};
use crate::explain::Explained;
use crate::wording::shown;
use std::collections::HashMap;

/// The longest value that a cell shows.
const LONGEST_CELL: usize = 24;

/// The name of a kind's colours.
pub fn class_of(kind: Kind) -> &'static str {
    match kind {
        Kind::True => "t",
        Kind::False => "f",
        Kind::Undefined => "u",
        Kind::Stopped => "s",
        Kind::Value => "v",
    }
}

/// Objects by rules.
pub fn table(explained: &Explained) -> String {
    let Some(sheet) = &explained.sheet else {
        return String::new();
    };
    let rules = sheet.rules.iter().enumerate();
    let heads: String = rules
        .map(|(rule, of)| {
            let class = of.context;
            format!(
                "<th scope=\"col\"><a href=\"#rule-{rule}\">Rule&nbsp;{rule}</a> \
                <span class=\"class\">#{class}</span></th>\n"
            )
        })
        .collect();
    let verdicts = explained.verdicts.iter();
    let by_place: HashMap<(usize, u8), &Verdict> = verdicts
        .map(|verdict| ((verdict.rule, verdict.object), verdict))
        .collect();
    let objects = sheet.model.objects.iter().zip(0..);
    let rows: String = objects
        .map(|(class, object)| {
            let cells = (0..sheet.rules.len()).map(|rule| cell(by_place.get(&(rule, object))));
            format!(
                "<tr><th scope=\"row\">@{object} <span class=\"class\">#{class}</span></th>\n{}</tr>\n",
                cells.collect::<String>()
            )
        })
        .collect();
    format!(
        "<section aria-labelledby=\"verdicts\">\n<h2 id=\"verdicts\">Objects by rules</h2>\n\
        <p>Each verdict leads to its explanation. An empty cell: the rule is not for that object's class.</p>\n\
        <div class=\"scroll\" role=\"region\" aria-labelledby=\"verdicts\" tabindex=\"0\">\n<table>\n\
        <thead><tr><th scope=\"col\">Object</th>\n{heads}</tr></thead>\n<tbody>\n{rows}</tbody>\n\
        </table>\n</div>\n</section>\n"
    )
}

fn cell(verdict: Option<&&Verdict>) -> String {
    let Some(verdict) = verdict else {
        return "<td class=\"none\"></td>\n".to_string();
    };
    let class = class_of(verdict.kind());
    let (why, cell) = anchors(verdict);
    let value = text(&cut(&verdict.value, LONGEST_CELL));
    format!("<td class=\"{class}\"><a id=\"{cell}\" href=\"#{why}\">{value}</a></td>\n")
}

/// The verdicts of some kinds in words, rule by rule.
pub fn explanations(explained: &Explained, title: &str, wanted: &dyn Fn(Kind) -> bool) -> String {
    let verdicts = explained.verdicts.iter();
    let verdicts = verdicts.filter(|verdict| wanted(verdict.kind()));
    let articles: String = verdicts
        .map(|verdict| explanation(explained, verdict))
        .collect();
    if articles.is_empty() {
        return String::new();
    }
    format!("<section>\n<h2>{title}</h2>\n{articles}</section>\n")
}

/// The rules as text, each with its line of the sheet.
pub fn rules(explained: &Explained) -> String {
    let sheet = explained.sheet.as_ref();
    let rules = sheet.map_or(&[][..], |sheet| &sheet.rules).iter();
    let items = rules.enumerate().map(|(number, rule)| {
        let class = rule.context;
        let line = explained.lines.head(rule.root.line).unwrap_or(0);
        let rule = text(&shown(&rule.root));
        format!(
            "<dt id=\"rule-{number}\">Rule {number}, for each object of class #{class}, \
            <a href=\"#line-{line}\">line {line}</a></dt>\n<dd><code>{rule}</code></dd>\n"
        )
    });
    format!(
        "<section aria-labelledby=\"rules\">\n<h2 id=\"rules\">The rules</h2>\n<dl>\n{}</dl>\n</section>\n",
        items.collect::<String>()
    )
}

fn explanation(explained: &Explained, verdict: &Verdict) -> String {
    let lines = explained.lines.all().len();
    let told = explained.told();
    let told = told.map_or(String::new(), |told| told.words(verdict));
    let (first, rest) = told.split_once('\n').unwrap_or((&told, ""));
    let class = class_of(verdict.kind());
    let value = text(&cut(&verdict.value, LONGEST_CELL));
    let (why, cell) = anchors(verdict);
    format!(
        "<article id=\"{why}\" class=\"why {class}\">\n\
        <h3><span class=\"mark {class}\">{value}</span> {}</h3>\n\
        {}<p class=\"back\"><a href=\"#{cell}\">Back to the table</a></p>\n</article>\n",
        text(&cut(first, 200)),
        words(rest, lines)
    )
}
