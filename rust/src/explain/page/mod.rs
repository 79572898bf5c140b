//! A report as one page in HTML: objects by rules, each verdict with a link to its
//! explanation, and the sheet's own lines. It needs no script and no other file.

mod escape;
mod parts;

use super::unlike::never_true;
use super::verdicts::{Kind, Verdict};
use super::{refused, Explained, NO_RULE, TOO_LONG};
use escape::{bytes, text, words};
use parts::{class_of, explanations, rules, table};

const STYLE: &str = include_str!("style.css");

/// The most lines of a sheet that are shown. No sheet that is read has more.
const MOST_LINES: usize = 2_200;

/// The page, under the name of the sheet.
pub fn page(explained: &Explained, name: &str) -> String {
    let name = text(name);
    let what = match explained.refusal {
        Some(_) => "Refused",
        None => "Report",
    };
    let body = match explained.refusal {
        Some((number, place)) => refusal(explained, number, place),
        None => report(explained),
    };
    let whose = text(explained.whose());
    let lines = sheet(explained);
    format!(
        "<!DOCTYPE html>\n<html lang=\"en\">\n<head>\n<meta charset=\"utf-8\">\n\
        <meta name=\"viewport\" content=\"width=device-width, initial-scale=1\">\n\
        <title>{what}: {name}</title>\n<style>\n{STYLE}</style>\n</head>\n<body>\n\
        <header>\n<h1>{what}: <span class=\"name\">{name}</span></h1>\n\
        <p class=\"whose\">{whose}</p>\n</header>\n<main>\n{body}{lines}</main>\n</body>\n</html>\n"
    )
}

/// A refusal in words.
fn refusal(explained: &Explained, number: u64, place: usize) -> String {
    let lines = explained.lines.all().len();
    let words = words(&refused(explained.text, number, place), lines);
    let mut out = format!(
        "<section aria-labelledby=\"why\">\n<h2 id=\"why\">Why it is refused</h2>\n\
        <div class=\"why f\">{words}</div>\n</section>\n"
    );
    if !explained.verdicts.is_empty() {
        let note = text(TOO_LONG.trim_end());
        out += &format!("<p>{note}</p>\n{}", report(explained));
    }
    out
}

/// Counts, table and explanations.
fn report(explained: &Explained) -> String {
    let counts = counts(explained);
    if explained.verdicts.is_empty() {
        let has_rules = explained
            .told()
            .is_some_and(|told| !told.sheet.rules.is_empty());
        let why = match has_rules {
            true => "There are no verdicts: no rule has an object.",
            false => NO_RULE,
        };
        return format!("{counts}<p>{why}</p>\n");
    }
    let to_look_at = |kind| matches!(kind, Kind::False | Kind::Undefined | Kind::Stopped);
    [
        counts,
        never(explained),
        table(explained),
        explanations(explained, "To look at", &to_look_at),
        explanations(explained, "The other verdicts", &|kind| !to_look_at(kind)),
        rules(explained),
    ]
    .concat()
}

/// The comparisons that are never true, if there are any.
fn never(explained: &Explained) -> String {
    let sheet = explained.sheet.as_ref();
    let never = sheet.map(|sheet| never_true(sheet).concat());
    let Some(never) = never.filter(|never| !never.is_empty()) else {
        return String::new();
    };
    let never = words(&never, explained.lines.all().len());
    format!(
        "<section aria-labelledby=\"never\">\n<h2 id=\"never\">Comparisons that are never true</h2>\n\
        {never}</section>\n"
    )
}

/// How many verdicts there are of each kind, which is the key to letters and colours too.
fn counts(explained: &Explained) -> String {
    let kinds = [
        (Kind::True, "t", "true"),
        (Kind::False, "f", "false"),
        (Kind::Undefined, "u", "undefined"),
        (Kind::Stopped, "!16", "stopped, by that number"),
        (Kind::Value, "value", "any other"),
    ];
    let items = kinds.iter().zip(explained.counts());
    let items = items.map(|((kind, letter, word), count)| {
        let class = class_of(*kind);
        format!("<li><span class=\"mark {class}\">{letter}</span> {word}: <b>{count}</b></li>\n")
    });
    let total = explained.verdicts.len();
    let word = if total == 1 { "verdict" } else { "verdicts" };
    format!(
        "<section aria-labelledby=\"counts\">\n<h2 id=\"counts\">{total} {word}</h2>\n\
        <ul class=\"counts\">\n{}</ul>\n</section>\n",
        items.collect::<String>()
    )
}

/// The lines of the sheet, the one to blame marked.
fn sheet(explained: &Explained) -> String {
    let blamed = explained.refusal.map_or(0, |(_, place)| place);
    let lines = explained.lines.all();
    let shown = lines.iter().enumerate().take(MOST_LINES);
    let items = shown.map(|(position, line)| {
        let number = position + 1;
        let line = bytes(line);
        if number == blamed {
            format!(
                "<li id=\"line-{number}\" class=\"blamed\"><code>{line}</code> \
                <strong>refused here</strong></li>\n"
            )
        } else {
            format!("<li id=\"line-{number}\"><code>{line}</code></li>\n")
        }
    });
    let items: String = items.collect();
    let rest = lines.len().saturating_sub(MOST_LINES);
    let more = match rest {
        0 => String::new(),
        _ => format!("<p>{rest} more lines are not shown.</p>\n"),
    };
    format!(
        "<section aria-labelledby=\"sheet\">\n<h2 id=\"sheet\">The sheet</h2>\n\
        <ol class=\"sheet\">\n{items}</ol>\n{more}</section>\n"
    )
}

/// Where a verdict is explained, and where its cell is.
fn anchors(verdict: &Verdict) -> (String, String) {
    let Verdict { rule, object, .. } = verdict;
    (
        format!("why-{rule}-{object}"),
        format!("cell-{rule}-{object}"),
    )
}
