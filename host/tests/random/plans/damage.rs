//! Damage to planner's texts: bytes and lines changed, cut, exchanged, doubled and put in.

use super::mistakes::odd_number;
use super::texts::NAMES;
use crate::chance::Chance;

/// Bytes that say something in a text, and some that only look as if they did.
const TELLING: &[u8] = b" \t\r\n\n##0123456789tT1\0\x0B\x0C\x1F/:@[`{\x7F\x85\xA0\xEF\xBB\xBF\xFF";

/// Damaged once or twice.
pub fn by_chance(mut text: Vec<u8>, chance: &mut Chance) -> Vec<u8> {
    for _ in 0..1 + chance.below(2) {
        if text.is_empty() {
            return text;
        }
        if chance.one_in(3) {
            text = of_lines(&text, chance);
        } else {
            of_bytes(&mut text, chance);
        }
    }
    text
}

fn of_bytes(text: &mut Vec<u8>, chance: &mut Chance) {
    let at = chance.below(text.len());
    match chance.below(9) {
        // Large and small letters differ by one bit, and so do other bytes.
        0 => text[at] ^= 0x20,
        1 => text[at] ^= 1 << chance.below(8),
        2 => text[at] = chance.byte(),
        3 => text[at] = chance.pick(TELLING),
        4 => drop(text.remove(at)),
        5 => text.truncate(at),
        6 => text.insert(at, chance.pick(TELLING)),
        7 => {
            let other = chance.below(text.len());
            text.swap(at, other);
        }
        _ => {
            let piece = if chance.one_in(2) { odd_number(chance) } else { chance.pick(&NAMES).into() };
            text.splice(at..at, piece);
        }
    }
}

fn of_lines(text: &[u8], chance: &mut Chance) -> Vec<u8> {
    let mut lines: Vec<&[u8]> = text.split_inclusive(|&byte| byte == b'\n').collect();
    let (at, other) = (chance.below(lines.len()), chance.below(lines.len()));
    match chance.below(4) {
        0 => lines.swap(at, other),
        1 => lines.insert(other, lines[at]),
        2 => drop(lines.remove(at)),
        _ => lines.truncate(at),
    }
    lines.concat()
}
