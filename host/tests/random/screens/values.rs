//! Values by chance, from the grammar of RFC 8259; and slips, which it does not have.

use super::strings::{bad_piece, piece};
use crate::chance::Chance;

/// Where a slip can be.
#[derive(Clone, Copy, PartialEq, Eq)]
pub enum Place {
    Blanks,
    Mark,
    Number,
    Piece,
    Word,
}

/// A text being made.
pub struct Maker<'a> {
    pub chance: &'a mut Chance,
    pub text: Vec<u8>,
    /// One place in so many has blanks; 0 is none.
    blanks: usize,
    /// The one slip, and how many such places come before it.
    slip: Option<(Place, usize)>,
}

const BAD_BLANKS: [&[u8]; 6] = [b"\x0B", b"\x0C", b"\x00", b"\xC2\xA0", b"\xEF\xBB\xBF", b"/**/"];
const BAD_NUMBERS: [&str; 16] =
    ["01", "00", "-01", "+1", "+0", ".5", "-.5", "1.", "0.", "1.e1", "1e", "1e+", "-", "0x1", "1e1.5", "1 1"];
const BAD_WORDS: [&str; 9] = ["True", "tru", "truee", "nul", "NULL", "nulll", "fals", "NaN", "a"];
const BAD_MARKS: [&str; 5] = ["", ",,", ";", ":", "]"];

impl Maker<'_> {
    pub fn new(chance: &mut Chance) -> Maker<'_> {
        let blanks = chance.pick(&[0, 0, 2, 3, 8, 30]);
        Maker { chance, text: Vec::new(), blanks, slip: None }
    }

    pub fn with_slip(chance: &mut Chance) -> Maker<'_> {
        use Place::{Blanks, Mark, Number, Piece, Word};
        let place = chance.pick(&[Blanks, Mark, Number, Number, Number, Piece, Piece, Piece, Piece, Word]);
        let before = chance.pick(&[0, 0, 1, 2, 4, 12]);
        Maker { slip: Some((place, before)), ..Maker::new(chance) }
    }

    pub fn slips(&mut self, place: Place) -> bool {
        match self.slip {
            Some((at, 0)) if at == place => {
                self.slip = None;
                true
            }
            Some((at, before)) if at == place => {
                self.slip = Some((at, before - 1));
                false
            }
            Some(_) | None => false,
        }
    }

    pub fn write(&mut self, bytes: impl AsRef<[u8]>) {
        self.text.extend(bytes.as_ref());
    }

    pub fn write_one_of(&mut self, texts: &[&str]) {
        let text = self.chance.pick(texts);
        self.write(text);
    }

    pub fn blanks(&mut self) {
        if self.blanks > 0 && self.chance.one_in(self.blanks) {
            for _ in 0..1 + self.chance.below(3) {
                self.text.push(self.chance.pick(b" \t\n\r"));
            }
        }
        if self.slips(Place::Blanks) {
            self.text.extend(self.chance.pick(&BAD_BLANKS));
        }
    }

    /// A bracket, a comma or a colon, with blanks around it.
    pub fn mark(&mut self, mark: u8) {
        self.blanks();
        if self.slips(Place::Mark) {
            self.write_one_of(&BAD_MARKS);
        } else {
            self.write([mark]);
        }
        self.blanks();
    }

    /// A value with at most so many lists and objects inside each other.
    pub fn value(&mut self, levels: usize) {
        match self.chance.below(if levels > 0 { 8 } else { 6 }) {
            0 | 1 => self.number(),
            2 | 3 => self.string(),
            4 => self.word(),
            5 => self.literal(),
            6 => self.list(levels),
            _ => self.object(levels),
        }
    }

    pub fn word(&mut self) {
        if self.slips(Place::Word) {
            self.write_one_of(&BAD_WORDS);
        } else {
            self.write_one_of(&["true", "false", "null"]);
        }
    }

    /// A value of our own kinds, where it means nothing.
    fn literal(&mut self) {
        self.write_one_of(&["0", "1", "65535", "[[1,1,1,1,1]]", "\"1\"", "[]", "{}", "-0", "1.0", "1e0"]);
    }

    /// This number.
    pub fn plain(&mut self, number: &str) {
        if self.slips(Place::Number) {
            self.write_one_of(&BAD_NUMBERS);
        } else {
            self.write(number);
        }
    }

    /// A number of any form.
    pub fn number(&mut self) {
        if self.slips(Place::Number) {
            return self.write_one_of(&BAD_NUMBERS);
        }
        if self.chance.one_in(3) {
            self.write("-");
        }
        if self.chance.one_in(3) {
            self.write("0");
        } else {
            self.text.push(self.chance.pick(b"123456789"));
            let more = self.digits_more();
            self.digits(more);
        }
        if self.chance.one_in(3) {
            self.write(".");
            let more = self.digits_more();
            self.digits(1 + more);
        }
        if self.chance.one_in(3) {
            self.write_one_of(&["e", "E", "e+", "E+", "e-", "E-"]);
            let more = self.digits_more();
            self.digits(1 + more);
        }
    }

    fn digits_more(&mut self) -> usize {
        if self.chance.one_in(30) {
            self.chance.below(40)
        } else {
            self.chance.below(5)
        }
    }

    pub fn digits(&mut self, number: usize) {
        for _ in 0..number {
            self.text.push(self.chance.pick(b"0123456789"));
        }
    }

    pub fn string(&mut self) {
        self.write("\"");
        let pieces = if self.chance.one_in(40) { self.chance.below(60) } else { self.chance.below(6) };
        for _ in 0..pieces {
            let bytes = if self.slips(Place::Piece) { bad_piece(self.chance) } else { piece(self.chance) };
            self.write(bytes);
        }
        self.write("\"");
    }

    pub fn list(&mut self, levels: usize) {
        self.mark(b'[');
        for place in 0..self.chance.below(4) {
            if place > 0 {
                self.mark(b',');
            }
            self.value(levels - 1);
        }
        self.mark(b']');
    }

    /// An object inside another value, in which a name of ours is like any other.
    fn object(&mut self, levels: usize) {
        self.mark(b'{');
        for place in 0..self.chance.below(4) {
            if place > 0 {
                self.mark(b',');
            }
            self.inner_name();
            self.mark(b':');
            self.value(levels - 1);
        }
        self.mark(b'}');
    }

    fn inner_name(&mut self) {
        if self.chance.one_in(2) {
            self.write_one_of(&["\"station\"", "\"aspect\"", "\"tracks\"", "\"\""]);
        } else {
            self.string();
        }
    }

    /// Exactly so many lists and objects, each inside the other.
    pub fn nest(&mut self, depth: usize) {
        let object = self.chance.one_in(2);
        self.mark(if object { b'{' } else { b'[' });
        if depth > 1 || self.chance.one_in(2) {
            let (before, after) = (self.chance.one_in(5), self.chance.one_in(5));
            if before {
                self.in_nest(object, 0);
                self.mark(b',');
            }
            self.in_nest(object, depth - 1);
            if after {
                self.mark(b',');
                self.in_nest(object, 0);
            }
        }
        self.mark(if object { b'}' } else { b']' });
    }

    fn in_nest(&mut self, object: bool, depth: usize) {
        if object {
            self.inner_name();
            self.mark(b':');
        }
        if depth > 0 {
            self.nest(depth);
        } else {
            self.number();
        }
    }
}
