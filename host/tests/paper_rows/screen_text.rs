//! What is an RFC 8259 text in UTF-8, how long it is, and how deep.

use super::values::{REFUSED, TAKEN};
use super::{Row, FIRST, FIRST_READ, NOT_OURS, NOT_TEXT};

/// What stands before a whole text and after it, so that it is none.
const AROUND: &[(&[u8], &[u8])] = &[
    (b"\xEF\xBB\xBF", b""),
    (b" \xEF\xBB\xBF", b""),
    (b"\xFE\xFF", b""),
    (b"\xFF\xFE", b""),
    (b"\x00", b""),
    (b"\x0C", b""),
    (b"0", b""),
    (b",", b""),
    (b"{", b""),
    (b"", b"\x00"),
    (b"", b"\x0B"),
    (b"", b"\x1A"),
    (b"", b"}"),
    (b"", b"]"),
    (b"", b","),
    (b"", b" 0"),
    (b"", b"\"\""),
    (b"", b"{}"),
    (b"", b"\n{}"),
    (b"", b"\x80"),
    (b"", b"\xC2\xA0"),
    (b"", b"\xEF\xBB\xBF"),
    (b"", b"//"),
    (b"[", b"}"),
];

/// No value at all, and values cut short.
const CUT: &[&[u8]] = &[
    b"",
    b" ",
    b"\t\n\r ",
    b"\xEF\xBB\xBF",
    b"{",
    b"[",
    b"\"",
    b"-",
    b"t",
    b"nul",
    b"0.",
    b"1e",
    b"{\"station\"",
    b"\x00",
    b"\xC3",
];

/// Values of a member, so many lists and objects deep.
const DEEP: &[(usize, &[u8])] = &[
    (6, b"[[[[[[]]]]]]"),
    (7, b"[[[[[[[]]]]]]]"),
    (7, b"[[[[[[[0,\"[[\"]]]],{}]]]"),
    (7, b"[[[[[[[],[],{}]]]]],[[[[[[]]]]]]]"),
    (7, br#"{"a":{"a":{"a":{"a":{"a":{"a":{}}}}}}}"#),
    (7, br#"{"a":[{"a":[{"a":[{"a":1}]}]}]}"#),
    (8, b"[[[[[[[[]]]]]]]]"),
    (8, b"[[[[[[[{}]]]]]]]"),
    (8, b"[[[[[[[1,[0]]]]]]]]"),
    (8, br#"{"a":{"a":{"a":{"a":{"a":{"a":{"a":{}}}}}}}}"#),
    (8, br#"{"a":[{"a":[{"a":[{"a":[]}]}]}]}"#),
    (9, b"[[[[[[[[[1]]]]]]]]]"),
];

fn with_member(value: &[u8], first: bool) -> Vec<u8> {
    let inside = &FIRST[1..FIRST.len() - 1];
    let parts: [&[u8]; 5] = if first { [b"{\"x\":", value, b",", inside, b"}"] } else { [b"{", inside, b",\"x\":", value, b"}"] };
    parts.concat()
}

pub fn rows() -> Vec<Row> {
    let mut rows = Vec::new();
    let mut add = |text: Vec<u8>, expected| rows.push(Row { text, expected });
    for first in [true, false] {
        TAKEN.iter().for_each(|value| add(with_member(value, first), FIRST_READ));
        REFUSED.iter().for_each(|value| add(with_member(value, first), NOT_TEXT));
        for &(deep, value) in DEEP {
            add(with_member(value, first), if deep + 1 > 8 { NOT_TEXT } else { FIRST_READ });
        }
    }
    for &(deep, value) in DEEP {
        add(value.to_vec(), if deep > 8 { NOT_TEXT } else { NOT_OURS });
    }
    TAKEN.iter().for_each(|value| add(value.to_vec(), NOT_OURS));
    REFUSED.iter().chain(CUT).for_each(|value| add(value.to_vec(), NOT_TEXT));
    AROUND.iter().for_each(|&(before, after)| add([before, FIRST, after].concat(), NOT_TEXT));
    (0..FIRST.len()).for_each(|length| add(FIRST[..length].to_vec(), NOT_TEXT));
    rows.extend(long());
    rows.extend(both_refusals());
    rows
}

/// 4,096 bytes are taken, by blanks before, after or inside, or by a long string of any characters.
fn long() -> Vec<Row> {
    let mut rows = Vec::new();
    for (length, expected) in [(4095, FIRST_READ), (4096, FIRST_READ), (4097, NOT_TEXT), (4098, NOT_TEXT), (65536, NOT_TEXT)] {
        let blanks = vec![b' '; length - FIRST.len()];
        let letters = vec![b'a'; length - with_member(b"\"\"", true).len()];
        let characters = [vec![b'a'; letters.len() % 2], b"\xC3\xA9".repeat(letters.len() / 2)].concat();
        let quoted = |inside: &[u8]| [b"\"", inside, b"\""].concat();
        rows.extend(
            [
                [&blanks, FIRST].concat(),
                [FIRST, &blanks].concat(),
                [b"{", &blanks[..], &FIRST[1..]].concat(),
                with_member(&quoted(&letters), true),
                with_member(&quoted(&letters), false),
                with_member(&quoted(&characters), true),
            ]
            .map(|text| {
                assert_eq!(text.len(), length);
                Row { text, expected }
            }),
        );
    }
    rows.push(Row { text: vec![b' '; 4096], expected: NOT_TEXT });
    rows.push(Row { text: vec![b'['; 4096], expected: NOT_TEXT });
    rows.push(Row { text: vec![b'1'; 4096], expected: NOT_OURS });
    rows.push(Row { text: vec![b'1'; 4097], expected: NOT_TEXT });
    rows
}

/// 15 goes before 16, wherever either stands.
fn both_refusals() -> [Row; 6] {
    let texts: [&[u8]; 6] = [
        br#"{"station":65536,"aspect":2,"tracks":[[1,0,1,0,1]]"#,
        br#"{"station":-0,"aspect":6,"tracks":[]}x"#,
        br#"{"aspect":2,"x":01}"#,
        br#"{"station":01,"aspect":2,"tracks":[[1,0,1,0,1]]}"#,
        br#"{"station":1,"aspect":2,"tracks":[[1,0,1,0,01]]}"#,
        br#"[[[[[[[[[]]]]]]]]]"#,
    ];
    texts.map(|text| Row { text: text.to_vec(), expected: NOT_TEXT })
}
