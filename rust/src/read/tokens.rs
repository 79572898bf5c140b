//! A text cut into words and signs.

/// The brackets and `if`s that may be open together.
pub const MOST_OPEN: usize = 64;

/// Whether a byte can stand in a word.
pub fn is_of_word(byte: u8) -> bool {
    byte.is_ascii_alphanumeric() || byte == b'#'
}

/// The words, each as long as it goes on, and the signs of a text, by their bytes.
/// Cutting never fails: a byte that no text has is a sign by itself.
pub fn tokens(text: &[u8]) -> Vec<&[u8]> {
    let mut found = Vec::new();
    let mut rest = text;
    while let [first, ..] = rest {
        let length = match rest {
            [b'-', b'>', ..] => 2,
            [word, ..] if is_of_word(*word) => {
                let end = rest.iter().position(|byte| !is_of_word(*byte));
                end.unwrap_or(rest.len())
            }
            _ => 1,
        };
        if *first != b' ' {
            found.push(&rest[..length]);
        }
        rest = &rest[length..];
    }
    found
}

/// The most brackets and `if`s that are open at one place. Those that close what is
/// not open count for nothing.
pub fn most_open(tokens: &[&[u8]]) -> usize {
    let mut open: usize = 0;
    let mut most = 0;
    for token in tokens {
        match *token {
            b"(" | b"{" | b"if" => open += 1,
            b")" | b"}" | b"endif" => open = open.saturating_sub(1),
            _ => {}
        }
        most = most.max(open);
    }
    most
}
