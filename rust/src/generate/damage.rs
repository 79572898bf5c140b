//! Damage to a sheet: bytes, lines and blocks; `fields` damages a line's fields.

use super::fields::change;
use super::random::Random;

const BYTES: &[u8] = b"\n\t\r 0123456789-@#(),SQBCAOVDRNXutf\x00\xff";

type Lines = Vec<Vec<u8>>;

fn split(text: &[u8]) -> Lines {
    text.split_inclusive(|byte| *byte == b'\n')
        .map(<[u8]>::to_vec)
        .collect()
}

pub fn damage(random: &mut Random, text: &[u8]) -> Vec<u8> {
    let mut text = text.to_vec();
    let times = if random.one_in(4) { 2 } else { 1 };
    for _ in 0..times {
        text = match random.below(10) {
            _ if text.is_empty() => b"\n".to_vec(),
            0 => bytes(random, text),
            1 | 2 => lines(random, split(&text)).concat(),
            _ => fields(random, split(&text)).concat(),
        };
    }
    text
}

fn bytes(random: &mut Random, mut text: Vec<u8>) -> Vec<u8> {
    let place = random.below(text.len());
    match random.below(6) {
        0 => text[place] = *random.pick(BYTES),
        1 => text.insert(place, *random.pick(BYTES)),
        2 => {
            text.remove(place);
        }
        3 => text.truncate(place),
        4 => {
            text.pop();
        }
        _ => text.push(*random.pick(BYTES)),
    }
    text
}

fn lines(random: &mut Random, mut lines: Lines) -> Lines {
    let count = lines.len();
    let (one, other) = (random.below(count), random.below(count));
    match random.below(9) {
        0 => {
            lines.remove(one);
        }
        1 => lines.insert(other, lines[one].clone()),
        2 => lines.swap(one, other),
        3 => move_block(random, &mut lines, one),
        4 => {
            for line in &mut lines {
                if line.ends_with(b"\n") {
                    line.insert(line.len() - 1, b'\r');
                }
            }
        }
        5 => lines.insert(one, b"\n".to_vec()),
        6 => {
            let strange: [&[u8]; 6] = [
                b"N\n",
                b"R\t0\t0\n",
                b"D\t0\t0\tBool\n",
                b"X\n",
                b"X\ttrue\n",
                b"N\t0\ttrue\n",
            ];
            lines.insert(one, random.pick(&strange).to_vec());
        }
        7 => lines.truncate(one),
        _ => lines[one].insert(0, *random.pick(BYTES)),
    }
    lines
}

/// A run of lines with the same letter, a block or a rule, moves.
fn move_block(random: &mut Random, lines: &mut Lines, start: usize) {
    let letter = lines[start][0];
    let end = (start..lines.len()).find(|n| lines[*n][0] != letter);
    let block: Lines = lines.drain(start..end.unwrap_or(lines.len())).collect();
    let place = random.between(0, lines.len());
    lines.splice(place..place, block);
}

fn split_line(line: &[u8]) -> Lines {
    let whole = line.strip_suffix(b"\n").unwrap_or(line);
    (whole.split(|byte| *byte == b'\t'))
        .map(<[u8]>::to_vec)
        .collect()
}

/// A line and those like it, chosen by line, by letter or by letter and form, so
/// that rare letters and forms get their share.
fn like_lines(random: &mut Random, lines: &Lines) -> Vec<usize> {
    let by = random.below(3);
    let key = |line: &Vec<u8>| -> Lines {
        let fields = split_line(line);
        let form = if by == 2 { fields.get(2) } else { None };
        let form = form.filter(|_| fields[0] == b"N").cloned();
        vec![fields[0].clone(), form.unwrap_or_default()]
    };
    let mut keys: Vec<Lines> = lines.iter().map(key).collect();
    if by > 0 {
        keys.sort();
        keys.dedup();
    }
    let chosen = random.pick(&keys);
    (0..lines.len())
        .filter(|line| key(&lines[*line]) == *chosen)
        .collect()
}

/// One line with one or two fields changed: two, so that one line can get two
/// refusals.
fn fields(random: &mut Random, mut lines: Lines) -> Lines {
    let like = like_lines(random, &lines);
    let chosen = *random.pick(&like);
    let mut fields = split_line(&lines[chosen]);
    for _ in 0..if random.one_in(3) { 2 } else { 1 } {
        let other = split_line(&lines[*random.pick(&like)]);
        change(random, &mut fields, &other);
    }
    let mut line = fields.join(&b'\t');
    line.push(b'\n');
    lines[chosen] = line;
    lines
}
