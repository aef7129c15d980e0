//! Pieces of strings by chance: what RFC 8259 and RFC 3629 have between quotes, and what they do not.

use crate::chance::Chance;

/// The first and the last character of each length in UTF-8, and the neighbours of the surrogates.
const EDGES: [u32; 12] = [0x20, 0x7E, 0x7F, 0x80, 0x7FF, 0x800, 0xD7FF, 0xE000, 0xFEFF, 0xFFFF, 0x1_0000, 0x10_FFFF];

/// The first character of each length, and one past the last.
const LENGTHS: [(u32, u32); 4] = [(0x20, 0x80), (0x80, 0x800), (0x800, 0x1_0000), (0x1_0000, 0x11_0000)];

const SHORT_ESCAPES: [&[u8]; 8] = [br#"\""#, br"\\", br"\/", br"\b", br"\f", br"\n", br"\r", br"\t"];
const WORDS: [&[u8]; 8] = [b"station", b"aspect", b"tracks", b"[", b"{", b"]}", b":1,", b"platform 2"];

pub fn piece(chance: &mut Chance) -> Vec<u8> {
    match chance.below(9) {
        0 => chance.pick(&SHORT_ESCAPES).to_vec(),
        1 => escaped(chance.word(), chance),
        // Surrogates, lone or in pairs as it happens.
        2 => escaped(0xD800 + chance.between(0, 0x7FF), chance),
        3 => [escaped(0xD800 + chance.between(0, 0x3FF), chance), escaped(0xDC00 + chance.between(0, 0x3FF), chance)].concat(),
        4 => chance.pick(&WORDS).to_vec(),
        5 => character(chance.pick(&EDGES)),
        _ => {
            let (first, past) = chance.pick(&LENGTHS);
            character(first + chance.below((past - first) as usize) as u32)
        }
    }
}

/// A character in UTF-8. A surrogate is none, and a quote or a backslash needs an escape, so a letter stands for these.
fn character(code: u32) -> Vec<u8> {
    let character = char::from_u32(code).filter(|character| !matches!(character, '"' | '\\')).unwrap_or('a');
    character.to_string().into_bytes()
}

/// A code unit as `\u` and four digits, of which the letters are small or large.
pub fn escaped(unit: u16, chance: &mut Chance) -> Vec<u8> {
    let mut escape = br"\u".to_vec();
    for digit in format!("{unit:04x}").bytes() {
        escape.push(if chance.one_in(2) { digit.to_ascii_uppercase() } else { digit });
    }
    escape
}

fn continuation(chance: &mut Chance) -> u8 {
    0x80 + chance.below(0x40) as u8
}

/// A byte at one of the ends, or any between.
fn byte_of(first: u8, last: u8, chance: &mut Chance) -> u8 {
    match chance.below(4) {
        0 => first,
        1 => last,
        _ => chance.between(u16::from(first), u16::from(last)) as u8,
    }
}

/// The bytes given, and continuations up to this length.
fn continued(mut bytes: Vec<u8>, length: usize, chance: &mut Chance) -> Vec<u8> {
    bytes.resize_with(length, || continuation(chance));
    bytes
}

/// What makes a string none.
pub fn bad_piece(chance: &mut Chance) -> Vec<u8> {
    match chance.below(8) {
        0 => vec![continuation(chance)],
        1 => overlong(chance),
        // A surrogate in UTF-8.
        2 => continued(vec![0xED, byte_of(0xA0, 0xBF, chance)], 3, chance),
        // Above 10FFFF.
        3 => continued(vec![0xF4, byte_of(0x90, 0xBF, chance)], 4, chance),
        4 => {
            let length = 1 + chance.below(4);
            continued(vec![byte_of(0xF5, 0xFF, chance)], length, chance)
        }
        5 => cut(chance),
        6 => vec![byte_of(0x00, 0x1F, chance)],
        _ => bad_escape(chance),
    }
}

fn overlong(chance: &mut Chance) -> Vec<u8> {
    match chance.below(3) {
        0 => continued(vec![chance.pick(&[0xC0, 0xC1])], 2, chance),
        1 => continued(vec![0xE0, byte_of(0x80, 0x9F, chance)], 3, chance),
        _ => continued(vec![0xF0, byte_of(0x80, 0x8F, chance)], 4, chance),
    }
}

/// A character without its end.
fn cut(chance: &mut Chance) -> Vec<u8> {
    match chance.below(3) {
        0 => vec![byte_of(0xC2, 0xDF, chance)],
        1 => {
            let length = 1 + chance.below(2);
            continued(vec![byte_of(0xE1, 0xEC, chance)], length, chance)
        }
        _ => {
            let length = 1 + chance.below(3);
            continued(vec![byte_of(0xF1, 0xF3, chance)], length, chance)
        }
    }
}

fn bad_escape(chance: &mut Chance) -> Vec<u8> {
    match chance.below(3) {
        0 => vec![b'\\', chance.pick(b"aBUv0x' \n\x80")],
        1 => [&br"\u"[..], &b"00000"[..chance.below(4)], b"g"].concat(),
        _ => {
            let mut escape = escaped(chance.word(), chance);
            escape[2 + chance.below(4)] = chance.pick(b"gG/:@`+ \"");
            escape
        }
    }
}
