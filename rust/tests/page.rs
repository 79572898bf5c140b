//! The page of a report: every verdict in it, each link with its place, nothing unescaped.

#[path = "common/told.rs"]
mod told;

use second_evaluator::explain::explained;
use second_evaluator::explain::page::page;
use second_evaluator::generate;
use second_evaluator::harness::vectors::vectors;
use std::collections::HashSet;
use told::{printed, says, sheet};

fn page_of(text: &[u8], name: &str) -> String {
    page(&explained(text, &printed(text)).unwrap(), name)
}

/// The values of an attribute, in order.
fn values<'p>(page: &'p str, attribute: &str) -> Vec<&'p str> {
    let start = format!(" {attribute}=\"");
    let parts = page.split(start.as_str()).skip(1);
    parts.map(|part| part.split('"').next().unwrap()).collect()
}

/// Elements are closed in order, but for those that have no end.
fn is_well_formed(page: &str) -> bool {
    let page =
        page.split("<style>").next().unwrap().to_string() + page.split("</style>").nth(1).unwrap();
    let mut open = Vec::new();
    for tag in page.split('<').skip(1) {
        let Some((tag, _)) = tag.split_once('>') else {
            return false;
        };
        let name = tag.split([' ', '/']).next().unwrap();
        match tag.strip_prefix('/') {
            Some(closed) if open.pop() != Some(closed) => return false,
            None if !matches!(name, "meta" | "!DOCTYPE") => open.push(name),
            _ => {}
        }
    }
    open.is_empty()
}

/// Each link has its place, no place is there twice, and elements are closed.
fn holds_together(page: &str, name: &str) {
    assert!(is_well_formed(page), "{name}");
    let ids = values(page, "id");
    let known: HashSet<&str> = ids.iter().copied().collect();
    assert_eq!(ids.len(), known.len(), "{name}: an id is there twice");
    for link in values(page, "href") {
        let place = link
            .strip_prefix('#')
            .unwrap_or_else(|| panic!("{name}: {link}"));
        assert!(known.contains(place), "{name}: {link} leads nowhere");
    }
    for label in values(page, "aria-labelledby") {
        assert!(known.contains(label), "{name}: {label} labels nothing");
    }
    assert!(
        !page.contains("<script") && !page.contains("src="),
        "{name}"
    );
}

#[test]
fn every_sheet_has_its_page() {
    let vectors = vectors().unwrap().into_iter();
    let vectors = vectors.step_by(3).map(|vector| (vector.name, vector.text));
    let any = (0..150).map(|seed| (seed.to_string(), generate::sheet(seed)));
    for (name, text) in vectors.chain(any) {
        let told = explained(&text, &printed(&text)).unwrap();
        if told.verdicts.iter().any(|verdict| verdict.steps > 2_000) {
            continue;
        }
        let page = page(&told, &name);
        holds_together(&page, &name);
        for verdict in &told.verdicts {
            let (rule, object) = (verdict.rule, verdict.object);
            let cell = format!("<a id=\"cell-{rule}-{object}\" href=\"#why-{rule}-{object}\">");
            assert!(page.contains(&cell), "{name}: {cell}");
            assert!(
                page.contains(&format!("<article id=\"why-{rule}-{object}\"")),
                "{name}"
            );
        }
        let lines = text.split_inclusive(|byte| *byte == b'\n').count();
        let shown = page.matches("<li id=\"line-").count();
        assert_eq!(shown, lines.min(2_200), "{name}");
    }
}

#[test]
fn a_verdict_has_its_letter_and_its_colour() {
    let lines =
        "C 0 -|A 0 0 5 Int|O 0 0|V 0 0 9|R 0 0|X self.a5 < 12|R 1 0|X 12 < self.a5|R 2 0|X undef|\
        R 3 0|X 2147483647 + 1|R 4 0|X Set{self.a5}";
    let page = page_of(&sheet(lines), "five");
    let cells = [
        ("t", "t"),
        ("f", "f"),
        ("u", "u"),
        ("s", "!19"),
        ("v", "S(9)"),
    ];
    for (rule, (class, value)) in cells.into_iter().enumerate() {
        let cell = format!(
            "<td class=\"{class}\"><a id=\"cell-{rule}-0\" href=\"#why-{rule}-0\">{value}</a></td>"
        );
        assert!(page.contains(&cell), "{cell}");
    }
    assert!(
        page.contains("<th scope=\"row\">@0 ") && page.contains("<th scope=\"col\">Object</th>")
    );
    assert!(page.contains("<title>Report: five</title>"));
}

#[test]
fn a_refusal_marks_its_line() {
    let lines = "C 0 -|R 0 0|X 1 = 2 = 3";
    says(lines, &["not a sentence (20) at line 3"]);
    let page = page_of(&sheet(lines), "refused");
    holds_together(&page, "refused");
    assert!(page.contains("<li id=\"line-3\" class=\"blamed\"><code>X\t1 = 2 = 3</code>"));
    assert!(page.contains("not a sentence (20)") && !page.contains("<table>"));
}

#[test]
fn nothing_stands_unescaped() {
    let mut text = b"C\t0\t-\nX\t<script>alert(\"&\")</script>'".to_vec();
    text.extend((0..=255).filter(|byte| *byte != b'\n'));
    let page = page_of(&text, "<b>\u{7}&\"'");
    holds_together(&page, "bytes");
    assert!(page.contains("&lt;script&gt;alert(&quot;&amp;&quot;)&lt;/script&gt;&#39;"));
    assert!(page.contains("<title>Refused: &lt;b&gt;\\u{7}&amp;&quot;&#39;</title>"));
    assert!(page
        .chars()
        .all(|letter| !letter.is_control() || matches!(letter, '\n' | '\t')));
    assert!(page.contains("\\x00\\x01") && page.contains("\\xff"));
}

#[test]
fn comparisons_that_are_never_true_are_named() {
    let page = page_of(&sheet("C 0 -|O 0 0|R 0 0|X not (self = 3)"), "unlike");
    holds_together(&page, "unlike");
    assert!(page.contains("Never true: `self = 3`, <a href=\"#line-4\">line 4</a>, as"));
}

#[test]
fn no_verdicts_and_no_sheet() {
    for (lines, why) in [
        ("C 0 -", "The sheet has no rule"),
        ("C 0 -|R 0 0|X true", "There are no verdicts"),
    ] {
        let page = page_of(&sheet(lines), "none");
        holds_together(&page, lines);
        assert!(page.contains(why), "{lines}");
    }
    holds_together(&page_of(b"", "empty"), "empty");
}
