//! Lines of words as bytes: blanks, line ends, comments, either case and leading zeros, as planners and their editors have them.

use super::texts::Line;
use crate::chance::Chance;

/// The byte order mark, and others that are none.
const MARKS: [&[u8]; 8] = [
    b"\xEF\xBB\xBF",
    b"\xEF\xBB\xBF",
    b"\xEF\xBB\xBF",
    b"\xEF\xBB\xBF",
    b"\xEF\xBB",
    b"\xEF\xBB\xBE",
    b"\xEF\xBB\xBF\xEF\xBB\xBF",
    b"\xFE\xFF",
];

const BLANKS: [&[u8]; 7] = [b" ", b"  ", b"\t", b" \t ", b"\r", b"\r\r", b"          "];

const COMMENTS: [&[u8]; 8] =
    [b"#", b"##", b"# two trains", b"#occupied 0 4", b"#\r", b"# ma\xF1ana", b"#\0\xFF", b"#\xEF\xBB\xBF tracks 2"];

const ZEROS: [&[u8]; 4] = [b"0", b"00", b"000000", b"000000000000000000000000000000"];

/// How a text is written down.
struct Hand {
    text: Vec<u8>,
    /// One in so many blanks, words and lines is not as plain as can be.
    odd: usize,
    /// One in so many letters is large.
    large: usize,
    line_end: &'static [u8],
}

/// The text of some lines.
pub fn written(lines: &[Line], chance: &mut Chance) -> Vec<u8> {
    let odd = chance.pick(&[3, 20, 20, 200]);
    let large = chance.pick(&[1, 2, 1000, 1000, 1000]);
    let line_end = chance.pick(&[&b"\n"[..], b"\n", b"\n", b"\r\n"]);
    let mut hand = Hand { text: Vec::new(), odd, large, line_end };
    if chance.one_in(8) {
        hand.text.extend(chance.pick(&MARKS));
    }
    for line in lines {
        hand.line(line, chance);
    }
    // An editor may leave the last line without an end.
    if chance.one_in(4) && hand.text.ends_with(line_end) {
        hand.text.truncate(hand.text.len() - line_end.len());
    }
    hand.text
}

impl Hand {
    fn line(&mut self, line: &Line, chance: &mut Chance) {
        while chance.one_in(2 * self.odd) {
            self.rest(chance);
        }
        if chance.one_in(self.odd) {
            self.text.extend(chance.pick(&BLANKS));
        }
        for (place, word) in line.iter().enumerate() {
            if place > 0 {
                let blank = if chance.one_in(self.odd) { chance.pick(&BLANKS) } else { b" " };
                self.text.extend(blank);
            }
            self.word(word, chance);
        }
        self.rest(chance);
    }

    fn word(&mut self, word: &[u8], chance: &mut Chance) {
        if word.iter().all(u8::is_ascii_digit) && chance.one_in(self.odd) {
            self.text.extend(chance.pick(&ZEROS));
        }
        for byte in word {
            let large = chance.one_in(self.large);
            self.text.push(if large { byte.to_ascii_uppercase() } else { *byte });
        }
    }

    /// What follows the words: blanks, a comment, and the end of the line.
    fn rest(&mut self, chance: &mut Chance) {
        if chance.one_in(self.odd) {
            self.text.extend(chance.pick(&BLANKS));
        }
        if chance.one_in(self.odd) {
            self.text.extend(chance.pick(&COMMENTS));
        }
        self.text.extend(self.line_end);
    }
}
