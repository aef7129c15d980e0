//! RFC 8259: a text walked value by value, with nothing of it kept.

/// "Lists and objects stand at most 8 deep, each inside the other." The
/// outermost is 1 deep.
const DEEPEST: usize = 8;

/// No RFC 8259 text in UTF-8, or too deep.
pub(super) struct NotText;

/// Walks a whole text. Where its value is an object, each member is shown: its
/// name as it stands between the quotes, and its value as it stands.
pub(super) fn walk<'a>(text: &'a [u8], member: impl FnMut(&'a str, &'a str)) -> Result<(), NotText> {
    let text = std::str::from_utf8(text).map_err(|_| NotText)?;
    let mut walk = Walk { text, at: 0 };
    walk.blanks();
    if walk.next_is(b'{') {
        walk.object(1, member)?;
    } else {
        walk.value(0)?;
    }
    walk.blanks();
    if walk.at == text.len() {
        Ok(())
    } else {
        Err(NotText)
    }
}

/// Whether a string of a text that was walked spells this name, "compared after
/// escapes". The short escapes spell no letter, so a name of letters has none.
pub(super) fn spells(string: &str, name: &str) -> bool {
    let mut rest = string.as_bytes();
    for letter in name.bytes() {
        rest = match rest {
            [b'\\', b'u', a, b, c, d, after @ ..] if code_unit([*a, *b, *c, *d]) == Some(u32::from(letter)) => after,
            [first, after @ ..] if *first == letter => after,
            _ => return false,
        };
    }
    rest.is_empty()
}

fn code_unit(digits: [u8; 4]) -> Option<u32> {
    digits.iter().try_fold(0, |unit, &digit| Some(unit * 16 + char::from(digit).to_digit(16)?))
}

/// "Space, horizontal tab, line feed or new line, carriage return."
pub(super) fn is_blank(byte: u8) -> bool {
    matches!(byte, b' ' | b'\t' | b'\n' | b'\r')
}

struct Walk<'a> {
    text: &'a str,
    at: usize,
}

impl<'a> Walk<'a> {
    fn peek(&self) -> Option<u8> {
        self.text.as_bytes().get(self.at).copied()
    }

    fn next_is(&self, byte: u8) -> bool {
        self.peek() == Some(byte)
    }

    /// Steps over this byte, where it is the next.
    fn take(&mut self, byte: u8) -> bool {
        if self.next_is(byte) {
            self.at += 1;
            true
        } else {
            false
        }
    }

    fn expect(&mut self, byte: u8) -> Result<(), NotText> {
        if self.take(byte) {
            Ok(())
        } else {
            Err(NotText)
        }
    }

    fn any(&mut self) -> Result<u8, NotText> {
        let byte = self.peek().ok_or(NotText)?;
        self.at += 1;
        Ok(byte)
    }

    fn blanks(&mut self) {
        while self.peek().is_some_and(is_blank) {
            self.at += 1;
        }
    }

    /// A value inside so many lists and objects.
    fn value(&mut self, depth: usize) -> Result<(), NotText> {
        match self.peek() {
            Some(b'{') => self.object(depth + 1, |_, _| ()),
            Some(b'[') => self.list(depth + 1),
            Some(b'"') => self.string().map(drop),
            Some(b'-' | b'0'..=b'9') => self.number(),
            Some(b't') => self.word("true"),
            Some(b'f') => self.word("false"),
            Some(b'n') => self.word("null"),
            Some(_) | None => Err(NotText),
        }
    }

    fn object(&mut self, depth: usize, mut member: impl FnMut(&'a str, &'a str)) -> Result<(), NotText> {
        self.open(b'{', depth)?;
        if self.take(b'}') {
            return Ok(());
        }
        loop {
            let name = self.string()?;
            self.blanks();
            self.expect(b':')?;
            self.blanks();
            let start = self.at;
            self.value(depth)?;
            member(name, &self.text[start..self.at]);
            if self.closed(b'}')? {
                return Ok(());
            }
        }
    }

    fn list(&mut self, depth: usize) -> Result<(), NotText> {
        self.open(b'[', depth)?;
        if self.take(b']') {
            return Ok(());
        }
        loop {
            self.value(depth)?;
            if self.closed(b']')? {
                return Ok(());
            }
        }
    }

    fn open(&mut self, bracket: u8, depth: usize) -> Result<(), NotText> {
        if depth > DEEPEST {
            return Err(NotText);
        }
        self.expect(bracket)?;
        self.blanks();
        Ok(())
    }

    /// After a value: whether its list or object ends, or a comma is stepped over.
    fn closed(&mut self, bracket: u8) -> Result<bool, NotText> {
        self.blanks();
        if self.take(bracket) {
            return Ok(true);
        }
        self.expect(b',')?;
        self.blanks();
        Ok(false)
    }

    /// What stands between the quotes.
    fn string(&mut self) -> Result<&'a str, NotText> {
        self.expect(b'"')?;
        let start = self.at;
        loop {
            match self.any()? {
                b'"' => return Ok(&self.text[start..self.at - 1]),
                b'\\' => self.escape()?,
                0x00..=0x1F => return Err(NotText),
                0x20..=0xFF => {}
            }
        }
    }

    fn escape(&mut self) -> Result<(), NotText> {
        match self.any()? {
            b'"' | b'\\' | b'/' | b'b' | b'f' | b'n' | b'r' | b't' => Ok(()),
            b'u' => (0..4).try_for_each(|_| if self.any()?.is_ascii_hexdigit() { Ok(()) } else { Err(NotText) }),
            _ => Err(NotText),
        }
    }

    /// A zero that another digit follows ends here, and then that digit is in
    /// nobody's place.
    fn number(&mut self) -> Result<(), NotText> {
        self.take(b'-');
        if !self.take(b'0') {
            self.digits()?;
        }
        if self.take(b'.') {
            self.digits()?;
        }
        if self.take(b'e') || self.take(b'E') {
            if !self.take(b'+') {
                self.take(b'-');
            }
            self.digits()?;
        }
        Ok(())
    }

    /// At least one digit.
    fn digits(&mut self) -> Result<(), NotText> {
        let start = self.at;
        while self.peek().is_some_and(|byte| byte.is_ascii_digit()) {
            self.at += 1;
        }
        if self.at > start {
            Ok(())
        } else {
            Err(NotText)
        }
    }

    fn word(&mut self, word: &str) -> Result<(), NotText> {
        if !self.text[self.at..].starts_with(word) {
            return Err(NotText);
        }
        self.at += word.len();
        Ok(())
    }
}
