//! Our members by chance, among others: repeated, misspelt, escaped, missing, with values good and bad at each edge.

use super::strings::escaped;
use super::values::Maker;
use crate::chance::Chance;

const NAMES: [&str; 3] = ["station", "aspect", "tracks"];
const STATION: usize = 0;
const ASPECT: usize = 1;

/// One of ours in so many is missing, misspelt or has a bad value.
const MISSING: usize = 40;
const MISSPELT: usize = 40;
const BAD: usize = 14;

const BAD_DIGITS: [&str; 15] = ["2", "2", "2", "9", "10", "11", "-0", "-1", "1.0", "1e0", "\"1\"", "null", "true", "[1]", "{}"];

#[derive(Clone, Copy)]
pub enum Member {
    /// One of ours, by its place in `NAMES`.
    Ours(usize),
    /// A name of ours with any value.
    OursWithAny(usize),
    /// A name that is nearly ours, with a value that ours could have.
    Nearly(usize),
    Other,
    /// Another, or one of ours, so many lists and objects deep.
    Deep(Option<usize>, usize),
}

/// Our members and others, in any order.
pub fn by_chance(chance: &mut Chance) -> Vec<Member> {
    let mut members = Vec::new();
    for ours in 0..NAMES.len() {
        if chance.one_in(MISSPELT) {
            members.push(Member::Nearly(ours));
        } else if !chance.one_in(MISSING) {
            members.push(Member::Ours(ours));
        }
    }
    for _ in 0..chance.pick(&[0, 0, 1, 2, 4]) {
        members.push(Member::Other);
    }
    if chance.one_in(3) {
        for _ in 0..1 + chance.below(2) {
            let ours = chance.below(NAMES.len());
            members.push(chance.pick(&[Member::Ours(ours), Member::Nearly(ours), Member::OursWithAny(ours)]));
        }
    }
    for end in (1..members.len()).rev() {
        members.swap(end, chance.below(end + 1));
    }
    members
}

/// The object of these members, with blanks around it.
pub fn write_all(maker: &mut Maker, members: &[Member]) {
    maker.mark(b'{');
    for (place, &member) in members.iter().enumerate() {
        if place > 0 {
            maker.mark(b',');
        }
        write(maker, member);
    }
    maker.mark(b'}');
}

fn write(maker: &mut Maker, member: Member) {
    match member {
        Member::Ours(ours) | Member::OursWithAny(ours) | Member::Deep(Some(ours), _) => our_name(maker, ours),
        Member::Nearly(ours) => near_name(maker, ours),
        Member::Other | Member::Deep(None, _) => maker.string(),
    }
    maker.mark(b':');
    match member {
        Member::Ours(ours) | Member::Nearly(ours) => our_value(maker, ours),
        Member::OursWithAny(_) | Member::Other => maker.value(3),
        Member::Deep(_, depth) => maker.nest(depth),
    }
}

/// Plain, or some of its letters escaped.
fn our_name(maker: &mut Maker, ours: usize) {
    let escapes = maker.chance.pick(&[0, 0, 0, 1, 3]);
    maker.write("\"");
    for letter in NAMES[ours].bytes() {
        if escapes > 0 && maker.chance.one_in(escapes) {
            let escape = escaped(u16::from(letter), maker.chance);
            maker.write(escape);
        } else {
            maker.write([letter]);
        }
    }
    maker.write("\"");
}

/// With a letter changed, left out, doubled, of another size or with another high byte; the backslash of an escape escaped; or a
/// tab for a `t`.
fn near_name(maker: &mut Maker, ours: usize) {
    let mut name = NAMES[ours].as_bytes().to_vec();
    let at = maker.chance.below(name.len());
    let replaced = match maker.chance.below(8) {
        0 => vec![name[at].to_ascii_uppercase()],
        1 => escaped(u16::from(name[at].to_ascii_uppercase()), maker.chance),
        2 => vec![],
        3 => vec![name[at]; 2],
        4 => escaped(u16::from(name[at]) | 0x100 << maker.chance.below(8), maker.chance),
        5 => [b"\\".to_vec(), escaped(u16::from(name[at]), maker.chance)].concat(),
        6 => vec![name[at] ^ 1],
        _ => vec![name[at], b' '],
    };
    if name[at] == b't' && maker.chance.one_in(3) {
        name.insert(at, b'\\');
    } else {
        name.splice(at..=at, replaced);
    }
    maker.write("\"");
    maker.write(name);
    maker.write("\"");
}

fn our_value(maker: &mut Maker, ours: usize) {
    let bad = maker.chance.one_in(BAD);
    match ours {
        STATION if bad => bad_number(maker, &[65536, 65537, 65545, 66000, 99999, 100_000, 131_071, 1 << 32, 1 << 40]),
        STATION => {
            let any = maker.chance.word();
            let station = maker.chance.pick(&[0, 1, 9, 10, 9999, 10000, 65534, 65535, any, any, any, any]);
            maker.plain(&station.to_string());
        }
        ASPECT if bad => bad_number(maker, &[6, 6, 7, 9, 10, 15, 50, 255, 256, 261, 65536, 1 << 32]),
        ASPECT => {
            let aspect = maker.chance.below(6);
            maker.plain(&aspect.to_string());
        }
        _ if bad => bad_tracks(maker),
        _ => {
            let tracks = 1 + maker.chance.below(4);
            lists(maker, &vec![5; tracks], None);
        }
    }
}

/// Of another form, or outside the range.
fn bad_number(maker: &mut Maker, outside: &[u64]) {
    let small = maker.chance.below(6);
    match maker.chance.below(12) {
        0 => maker.write(format!("-{small}")),
        1 => maker.write(format!("{small}.0")),
        2 => maker.write(format!("{small}e0")),
        3 => maker.write(format!("\"{small}\"")),
        4 => maker.write(format!("[{small}]")),
        5 => maker.value(2),
        6 => {
            maker.write("1");
            let digits = if maker.chance.one_in(10) { 1000 } else { 40 };
            let digits = 5 + maker.chance.below(digits);
            maker.digits(digits);
        }
        _ => {
            let number = maker.chance.pick(outside);
            maker.write(number.to_string());
        }
    }
}

fn bad_tracks(maker: &mut Maker) {
    let tracks = 1 + maker.chance.below(4);
    let mut lengths = vec![5; tracks];
    match maker.chance.below(8) {
        0 => maker.write("[]"),
        1 => lists(maker, &[5; 5], None),
        2 | 3 => {
            lengths[maker.chance.below(tracks)] = maker.chance.pick(&[0, 4, 4, 6, 6, 10]);
            lists(maker, &lengths, None);
        }
        4 | 5 => {
            let bad = (maker.chance.below(tracks), maker.chance.below(5));
            lists(maker, &lengths, Some(bad));
        }
        6 => maker.write_one_of(&["[1,1,1,1,1]", "[[[1,1,1,1,1]]]", "[[1,1,1,1,1],1]", "[[11111]]", "[\"11111\"]"]),
        _ => maker.value(3),
    }
}

/// Lists of so many digits, of which that of a place is a bad one.
fn lists(maker: &mut Maker, lengths: &[usize], bad: Option<(usize, usize)>) {
    maker.mark(b'[');
    for (track, &length) in lengths.iter().enumerate() {
        if track > 0 {
            maker.mark(b',');
        }
        maker.mark(b'[');
        for place in 0..length {
            if place > 0 {
                maker.mark(b',');
            }
            if bad == Some((track, place)) {
                maker.write_one_of(&BAD_DIGITS);
            } else {
                let digit = maker.chance.pick(&["0", "1"]);
                maker.plain(digit);
            }
        }
        maker.mark(b']');
    }
    maker.mark(b']');
}
