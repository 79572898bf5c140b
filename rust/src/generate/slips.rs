//! Damage to the text of a rule, by its words and signs.

use super::random::Random;
use super::texts::scattered;
use crate::read::tokens::tokens;

/// Words and signs that may stand in a text, at a limit, or nowhere.
const TOKENS: &str = "true false undef self let in if then else endif not and or div mod Set \
    Sequence Bag size asSet asBag asSequence includes including union collect forAll exists iter \
    isUndef oclAsType allInstances Void Bool Int Real Any S Q B C 0 1 00 01 2147483647 2147483648 \
    18446744073709551616 v0 v1 v2 v15 v16 v01 a0 a255 a256 a00 #0 #63 #64 #00 d0 d31 d32 d00 \
    r3ff8000000000000 r3ff0000000000000 r7ff0000000000000 iff endiff ( ) { } . , ; : | = < + - * \
    / -> > $ \x7f";

const SIGNS: [&str; 10] = ["or", "and", "=", "<", "+", "-", "*", "div", "mod", "/"];

fn any_token(random: &mut Random) -> String {
    let tokens: Vec<&str> = TOKENS.split(' ').collect();
    random.pick(&tokens).to_string()
}

/// One or two slips in a text.
pub fn change_text(random: &mut Random, text: &mut Vec<u8>) {
    for _ in 0..random.between(1, 2) {
        if random.one_in(8) {
            slip_of_byte(random, text);
        } else {
            let cut = tokens(text);
            let mut spelt: Vec<String> = (cut.iter())
                .map(|token| String::from_utf8_lossy(token).into_owned())
                .collect();
            slip(random, &mut spelt);
            let spaces = *random.pick(&[0, 1, 1, 3]);
            *text = scattered(random, &spelt, spaces).into_bytes();
        }
    }
}

fn slip_of_byte(random: &mut Random, text: &mut Vec<u8>) {
    const BYTES: &[u8] = b" ()#0aS-\x00\xff";
    let place = random.between(0, text.len());
    match random.below(3) {
        0 if place < text.len() => {
            text.remove(place);
        }
        1 if place < text.len() => text[place] = *random.pick(BYTES),
        _ => text.insert(place, *random.pick(BYTES)),
    }
}

fn slip(random: &mut Random, tokens: &mut Vec<String>) {
    if tokens.is_empty() {
        tokens.push(any_token(random));
        return;
    }
    let place = random.below(tokens.len());
    let signs: Vec<usize> = (0..tokens.len())
        .filter(|place| SIGNS.contains(&tokens[*place].as_str()))
        .collect();
    match random.below(12) {
        0 => {
            tokens.remove(place);
        }
        1 => tokens.insert(place, any_token(random)),
        2 | 3 => tokens[place] = any_token(random),
        4 if place > 0 => tokens.swap(place - 1, place),
        5 => tokens.insert(place, tokens[place].clone()),
        6 | 7 if !signs.is_empty() => {
            let sign = *random.pick(&signs);
            tokens[sign] = random.pick(&SIGNS).to_string();
        }
        8 if place > 0 => {
            // Two tokens become one.
            let second = tokens.remove(place);
            tokens[place - 1] += &second;
        }
        9 => {
            let end = random.between(place, tokens.len());
            tokens.insert(end, ")".to_string());
            tokens.insert(place, "(".to_string());
        }
        10 => tokens.truncate(place),
        _ => {
            // An operand between a sign and what it is.
            tokens.insert(place, "+".to_string());
            tokens.insert(place, "1".to_string());
        }
    }
}
