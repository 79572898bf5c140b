//! A good sheet of any length from some 20,000 bytes to the longest.

/// The text made this many bytes long by widening its Integers, each written `?`.
fn widen(text: &str, bytes: usize) -> String {
    const DIGITS: &str = "-1234567890";
    let mut left = bytes.saturating_sub(text.len());
    let mut out = String::with_capacity(bytes);
    for letter in text.chars() {
        if letter == '?' {
            let more = left.min(10);
            left -= more;
            let from = if more == 10 { 0 } else { 1 };
            out += &DIGITS[from..from + 1 + more];
        } else {
            out.push(letter);
        }
    }
    out
}

/// V lines at both their limits, lines and sizes, then one rule of this many groups.
pub fn full(bytes: usize, groups: usize) -> Vec<u8> {
    let mut text = "C\t0\t-\nC\t1\t-\nA\t0\t0\t255\tQ(Int)\n".to_string();
    for row in 1..64 {
        text += &format!("A\t{row}\t0\t{row}\tInt\n");
    }
    for object in 0..96 {
        let class = u8::from(object > 16);
        text += &format!("O\t{object}\t{class}\n");
    }
    // 8 Sequences of size 128 and 1,016 Integers.
    let members = ["?"; 127].join(",");
    for object in 0..17 {
        if object < 8 {
            text += &format!("V\t{object}\t0\tQ({members})\n");
        }
        let last = if object < 16 { 64 } else { 9 };
        for row in 1..last {
            text += &format!("V\t{object}\t{row}\t?\n");
        }
    }
    text += "R\t0\t0\n";
    text += &collections(groups, "?");
    widen(&text, bytes).into_bytes()
}

/// N lines of this many Sequences of the Integer, four times each, and their union.
pub fn collections(groups: usize, integer: &str) -> String {
    let mut text = String::new();
    let mut tops = Vec::new();
    let mut node = 0;
    for _ in 0..groups {
        for _ in 0..4 {
            text += &format!("N\t{node}\tint\t{integer}\n");
            node += 1;
        }
        let (a, b, c, d) = (node - 4, node - 3, node - 2, node - 1);
        text += &format!("N\t{node}\tcoll\tQ\t{a}\t{b}\t{c}\t{d}\n");
        tops.push(node);
        node += 1;
    }
    text + &joined("union", node, tops)
}

/// N lines, from this node on, that join the tops in pairs down to one.
pub fn joined(form: &str, mut node: usize, mut tops: Vec<usize>) -> String {
    let mut text = String::new();
    while tops.len() > 1 {
        let mut next = Vec::new();
        for pair in tops.chunks(2) {
            match pair {
                [left, right] => {
                    text += &format!("N\t{node}\t{form}\t{left}\t{right}\n");
                    next.push(node);
                    node += 1;
                }
                _ => next.push(pair[0]),
            }
        }
        tops = next;
    }
    text
}
