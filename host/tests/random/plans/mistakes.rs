//! What a planner may do wrong.

use super::texts::{line, Line, NAMES};
use crate::chance::Chance;

/// Words that are no number, or one at a limit, past it, or that would be small again in 8, 16, 32 or 64 bits.
const ODD_NUMBERS: [&[u8]; 34] = [
    b"0",
    b"255",
    b"256",
    b"257",
    b"999",
    b"000255",
    b"000256",
    b"65535",
    b"65536",
    b"65537",
    b"99999",
    b"0065535",
    b"0065536",
    b"100000",
    b"4294967295",
    b"4294967296",
    b"4294967551",
    b"18446744073709551615",
    b"18446744073709551616",
    b"18446744073709551617",
    b"340282366920938463463374607431768211457",
    b"-1",
    b"+1",
    b"-0",
    b"1.0",
    b"1,",
    b"0x1",
    b"1e1",
    b"/",
    b"1:",
    b"\xB2",
    b"\xD9\xA1",
    b"one",
    b"\0",
];

pub fn odd_number(chance: &mut Chance) -> Vec<u8> {
    chance.pick(&ODD_NUMBERS).to_vec()
}

/// One of the settings, while they are there, or any line.
fn place(lines: &[Line], chance: &mut Chance) -> usize {
    let among = if chance.one_in(2) { lines.len().min(7) } else { lines.len() };
    chance.below(among)
}

/// One mistake.
pub fn mistake(lines: &mut Vec<Line>, chance: &mut Chance) {
    let at = place(lines, chance);
    if chance.one_in(2) || lines[at].is_empty() {
        in_lines(lines, at, chance);
    } else {
        in_words(&mut lines[at], chance);
    }
}

/// Among the words of a line, of which there are some.
fn in_words(line: &mut Line, chance: &mut Chance) {
    let at = chance.below(line.len());
    match chance.below(8) {
        0 => misspell(&mut line[0], chance),
        1 => drop(line.pop()),
        2 => drop(line.remove(at)),
        3 => {
            let word = if chance.one_in(2) { odd_number(chance) } else { chance.pick(&NAMES).into() };
            line.insert(at + 1, word);
        }
        4 => line.swap(0, at),
        _ => {
            if let Some(number) = line.get_mut(at.max(1)) {
                *number = odd_number(chance);
            }
        }
    }
}

/// Among the lines: one that stands elsewhere, twice or nowhere, or that has the words of two.
fn in_lines(lines: &mut Vec<Line>, at: usize, chance: &mut Chance) {
    let other = place(lines, chance);
    match chance.below(9) {
        0 => lines.swap(at, other),
        1 => lines.insert(other, lines[at].clone()),
        2 if lines.len() > 1 => drop(lines.remove(at)),
        3 | 4 => outside(&mut lines[at], chance),
        5 => {
            let next = lines.get(at + 1).cloned().unwrap_or_default();
            lines[at].extend(next);
        }
        6 | 7 => {
            let setting = format!("{} {}", chance.pick(&NAMES[..6]), chance.below(9));
            let to = if chance.one_in(2) { lines.len() } else { at };
            lines.insert(to, line(&setting));
        }
        _ => lines.truncate(at + 1),
    }
}

/// A letter more, less or another.
fn misspell(word: &mut Vec<u8>, chance: &mut Chance) {
    if word.is_empty() {
        return;
    }
    let at = chance.below(word.len());
    match chance.below(4) {
        0 => drop(word.remove(at)),
        1 => word.insert(at, chance.pick(b"aet1\0\x0B\xA0")),
        2 => word[at] ^= 1 << chance.below(8),
        _ => word.truncate(at.max(1)),
    }
}

/// A setting that is outside its limits, or may be with the others.
fn outside(line: &mut Line, chance: &mut Chance) {
    let setting = line.first().is_some_and(|name| NAMES[..6].iter().any(|other| other.as_bytes() == name));
    if setting && line.len() == 2 {
        line[1] = chance.pick(&["0", "0", "0", "1", "5", "255"]).into();
    }
}
