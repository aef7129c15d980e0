//! Texts for the passenger screens by chance, made from the grammar of RFC 8259: our members among others, texts that are nearly
//! as deep or as long as can be or a little more, and texts with slips or damage.

use super::damage;
use super::members::{self, Member};
use super::values::Maker;
use crate::chance::Chance;

/// What a text was made to show.
#[derive(Clone, Copy)]
pub enum Kind {
    Members,
    NoObject,
    Slips,
    Depth7,
    Depth8,
    Depth9,
    Depth10,
    Length4095,
    Length4096,
    Length4097,
    Longer,
    Around,
    Turned,
    Cut,
    Spliced,
    Doubled,
}

/// Each kind, and the answers that reading its texts can have.
pub const KINDS: [(Kind, &str, &[u8]); 16] = [
    (Kind::Members, "members", &[0, 16]),
    (Kind::NoObject, "no object", &[16]),
    (Kind::Slips, "slips", &[0, 15, 16]),
    (Kind::Depth7, "depth 7", &[0, 16]),
    (Kind::Depth8, "depth 8", &[0, 16]),
    (Kind::Depth9, "depth 9", &[15]),
    (Kind::Depth10, "depth 10", &[15]),
    (Kind::Length4095, "4,095 bytes", &[0, 16]),
    (Kind::Length4096, "4,096 bytes", &[0, 16]),
    (Kind::Length4097, "4,097 bytes", &[15]),
    (Kind::Longer, "longer", &[15]),
    (Kind::Around, "around", &[15]),
    (Kind::Turned, "turned", &[0, 15, 16]),
    (Kind::Cut, "cut", &[0, 15, 16]),
    (Kind::Spliced, "spliced", &[0, 15, 16]),
    (Kind::Doubled, "doubled", &[0, 15, 16]),
];

/// The table stands in the order of the kinds, since counts are kept by their places.
const _: () = {
    let mut place = 0;
    while place < KINDS.len() {
        assert!(KINDS[place].0 as usize == place);
        place += 1;
    }
};

pub fn by_chance(chance: &mut Chance) -> (Kind, Vec<u8>) {
    match chance.below(40) {
        0..=11 => (Kind::Members, with_members(chance)),
        12 => (Kind::NoObject, no_object(chance)),
        13..=19 => (Kind::Slips, with_slip(chance)),
        20..=24 => deep(chance),
        25..=26 => long(chance),
        27..=28 => (Kind::Around, damage::around(with_members(chance), chance)),
        _ => damage::by_chance(whole(chance), chance),
    }
}

/// A text to damage.
fn whole(chance: &mut Chance) -> Vec<u8> {
    match chance.below(40) {
        0 => no_object(chance),
        1 => deep(chance).1,
        2 => long(chance).1,
        _ => with_members(chance),
    }
}

pub fn with_members(chance: &mut Chance) -> Vec<u8> {
    let members = members::by_chance(chance);
    text_of(&members, Maker::new(chance))
}

/// With one slip, unless its place never comes; other members have most places.
fn with_slip(chance: &mut Chance) -> Vec<u8> {
    let mut members = members::by_chance(chance);
    for _ in 0..2 {
        members.insert(chance.below(members.len() + 1), Member::Other);
    }
    text_of(&members, Maker::with_slip(chance))
}

fn text_of(members: &[Member], mut maker: Maker) -> Vec<u8> {
    members::write_all(&mut maker, members);
    maker.text
}

/// A list, a string, a number or a word.
fn no_object(chance: &mut Chance) -> Vec<u8> {
    let levels = chance.below(4);
    let mut maker = Maker::new(chance);
    maker.blanks();
    match maker.chance.below(4) {
        0 => maker.string(),
        1 => maker.number(),
        2 => maker.word(),
        _ => maker.list(1 + levels),
    }
    maker.blanks();
    maker.text
}

/// The deepest of another member, or of one of ours, before its like or after.
fn deep(chance: &mut Chance) -> (Kind, Vec<u8>) {
    let (kind, depth) = chance.pick(&[(Kind::Depth7, 7), (Kind::Depth8, 8), (Kind::Depth9, 9), (Kind::Depth10, 10)]);
    if chance.one_in(6) {
        let mut maker = Maker::new(chance);
        maker.nest(depth);
        return (kind, maker.text);
    }
    let mut members = members::by_chance(chance);
    let name = chance.one_in(4).then(|| chance.below(3));
    let at = chance.below(members.len() + 1);
    members.insert(at, Member::Deep(name, depth - 1));
    (kind, text_of(&members, Maker::new(chance)))
}

/// One that is of a length by blanks before it, in it or after it, or by another member. Where it is too long already, another
/// is made.
fn long(chance: &mut Chance) -> (Kind, Vec<u8>) {
    let longer = 4098 + chance.below(5000);
    let kinds = [(Kind::Length4095, 4095), (Kind::Length4096, 4096), (Kind::Length4097, 4097), (Kind::Longer, longer)];
    let (kind, length) = chance.pick(&kinds);
    let mut text = with_members(chance);
    while text.len() + PADDING > length {
        text = with_members(chance);
    }
    let missing = length - text.len();
    let brace = text.iter().position(|&byte| byte == b'{').expect("an object has a brace") + 1;
    let blanks = vec![chance.pick(b" \t\n\r"); missing];
    match chance.below(6) {
        0 => drop(text.splice(0..0, blanks)),
        1 => drop(text.splice(brace..brace, blanks)),
        2 => text.extend(blanks),
        // An object without members would be left with a comma.
        _ if text[brace..].contains(&b':') => drop(text.splice(brace..brace, padding(missing, chance))),
        _ => text.extend(blanks),
    }
    (kind, text)
}

/// The shortest member that pads.
const PADDING: usize = 6;

/// A member and a comma of so many bytes: a long string of characters of one length, or of escapes, or a long number.
fn padding(length: usize, chance: &mut Chance) -> Vec<u8> {
    let inside = length - PADDING;
    let character: &[u8] = chance.pick(&[b"a", b"\xC3\xA9", b"\xE2\x82\xAC", b"\xF0\x9F\x9A\x86", br"\n", br"\u0041", br#"\""#]);
    let mut padding = if chance.one_in(4) { br#""":1"#.to_vec() } else { br#""":""#.to_vec() };
    if padding.ends_with(b"1") {
        padding.resize(length - 1, b'0');
    } else {
        padding.resize(padding.len() + inside % character.len(), b'a');
        padding.extend(character.repeat(inside / character.len()));
        padding.push(b'"');
    }
    padding.push(b',');
    padding
}
