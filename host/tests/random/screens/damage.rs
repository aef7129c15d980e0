//! Damage to texts: something before or after, bytes turned, cut, spliced and doubled.

use super::strings::bad_piece;
use super::texts::{with_members, Kind};
use crate::chance::Chance;
use std::ops::Range;

const BEFORE: [&[u8]; 10] =
    [b"\xEF\xBB\xBF", b"\xEF\xBB\xBF", b"\xEF\xBB\xBF ", b"\xFE\xFF", b"\x00", b"\x0C", b",", b"0 ", b"{", b"\xC2\xA0"];
const AFTER: [&[u8]; 12] = [b"\x00", b"}", b"]", b",", b" 0", b"{}", b"\n{}", b"\"\"", b"\x1A", b"\xEF\xBB\xBF", b"//", b" null"];

/// Bytes that say something in a text, and some that are in none.
const TELLING: &[u8] = b"{}[]\":,\\ \t\n0123456789-+.eEutfn/\x00\x1F\x7F\x80\xBF\xC0\xC2\xE0\xED\xF0\xF4\xFF";

/// A text after which something stands, or before which.
pub fn around(text: Vec<u8>, chance: &mut Chance) -> Vec<u8> {
    let (before, after) = match chance.below(3) {
        0 => (chance.pick(&BEFORE), &b""[..]),
        1 => (&b""[..], chance.pick(&AFTER)),
        // A whole text after another.
        _ => return [text, with_members(chance)].concat(),
    };
    [before, &text, after].concat()
}

/// Damages a part of a text.
type Damage = fn(&mut Vec<u8>, Range<usize>, &mut Chance);

const DAMAGES: [(Kind, Damage); 4] = [(Kind::Turned, turn), (Kind::Cut, cut), (Kind::Spliced, splice), (Kind::Doubled, double)];

/// Damaged in one way, once or twice.
pub fn by_chance(mut text: Vec<u8>, chance: &mut Chance) -> (Kind, Vec<u8>) {
    let (kind, damage) = chance.pick(&DAMAGES);
    for _ in 0..1 + chance.below(2) {
        let part = part_of(text.len(), chance);
        damage(&mut text, part, chance);
    }
    (kind, text)
}

/// A byte, a few of them, or many.
fn part_of(length: usize, chance: &mut Chance) -> Range<usize> {
    let start = chance.below(length + 1);
    let most = chance.pick(&[1, 1, 4, 30]);
    start..length.min(start + 1 + chance.below(most))
}

/// At most two bytes, since of more nothing would be left to see.
#[allow(clippy::ptr_arg)] // one of the damages, of which the others change the length
fn turn(text: &mut Vec<u8>, part: Range<usize>, chance: &mut Chance) {
    for byte in text[part].iter_mut().take(2) {
        match chance.below(3) {
            0 => *byte ^= 1 << chance.below(8),
            1 => *byte = chance.byte(),
            _ => *byte = chance.pick(TELLING),
        }
    }
}

fn cut(text: &mut Vec<u8>, part: Range<usize>, chance: &mut Chance) {
    if chance.one_in(4) {
        text.truncate(part.start);
    } else {
        text.drain(part);
    }
}

fn splice(text: &mut Vec<u8>, part: Range<usize>, chance: &mut Chance) {
    text.splice(part.start..part.start, other(chance));
}

fn double(text: &mut Vec<u8>, part: Range<usize>, _: &mut Chance) {
    let doubled = text[part.clone()].to_vec();
    text.splice(part.end..part.end, doubled);
}

/// Bytes of no text, or a part of another.
fn other(chance: &mut Chance) -> Vec<u8> {
    match chance.below(4) {
        0 => vec![chance.pick(TELLING)],
        1 => vec![chance.byte()],
        2 => bad_piece(chance),
        _ => {
            let text = with_members(chance);
            let part = part_of(text.len(), chance);
            text[part].to_vec()
        }
    }
}
