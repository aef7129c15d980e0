//! Document 02, "Aspect to the passenger screens", and the numbers 15 and 16.

use super::json::{is_blank, spells, walk};
use super::register::NO_ROOM;
use super::station::{Station, DONE, ISLANDS, TRACKS};

/// "Any RFC 8259 text in UTF-8 of at most 4,096 bytes."
const MOST_BYTES: usize = 4096;
const LAST_ASPECT: u8 = 5;

const NOT_TEXT: u8 = 15;
const NOT_OURS: u8 = 16;

/// "A refused reading gives zeros and no tracks": the default. Digits past the
/// number of tracks are 0.
#[derive(Clone, Copy, PartialEq, Eq, Debug, Default)]
pub struct Message {
    pub station: u16,
    pub aspect: u8,
    pub tracks: u8,
    pub digits: [u8; 20],
}

impl Message {
    /// What is sent of a station of this number. One refused with 8 "is sent as
    /// aspect 5 with four tracks of 0".
    pub fn of(number: u16, station: &Station) -> Message {
        let mut digits = [0; 20];
        if !station.settings.within_limits() {
            return Message { station: number, aspect: LAST_ASPECT, tracks: TRACKS as u8, digits };
        }
        for (digit, island) in digits.iter_mut().zip(station.own_tracks().as_flattened()) {
            *digit = u8::from(!island.occupied);
        }
        Message { station: number, aspect: station.aspect(), tracks: station.settings.tracks, digits }
    }
}

/// Order: 15, 16.
pub fn read(text: &[u8]) -> (u8, Message) {
    if text.len() > MOST_BYTES {
        return (NOT_TEXT, Message::default());
    }
    let mut ours = Ours::default();
    if walk(text, |name, value| ours.note(name, value)).is_err() {
        return (NOT_TEXT, Message::default());
    }
    match ours.message() {
        Some(message) => (DONE, message),
        None => (NOT_OURS, Message::default()),
    }
}

/// The first value of each of our members in the outermost object, as it stands
/// in a text that is one.
#[derive(Default)]
struct Ours<'a> {
    station: Option<&'a str>,
    aspect: Option<&'a str>,
    tracks: Option<&'a str>,
}

impl<'a> Ours<'a> {
    fn note(&mut self, name: &str, value: &'a str) {
        let first = if spells(name, "station") {
            &mut self.station
        } else if spells(name, "aspect") {
            &mut self.aspect
        } else if spells(name, "tracks") {
            &mut self.tracks
        } else {
            return;
        };
        first.get_or_insert(value);
    }

    /// Parsing takes a plus sign and zeros before a number, but no text has
    /// those.
    fn message(&self) -> Option<Message> {
        let station = self.station?.parse().ok()?;
        let aspect = self.aspect?.parse().ok().filter(|&aspect| aspect <= LAST_ASPECT)?;
        let (tracks, digits) = tracks(self.tracks?)?;
        Some(Message { station, aspect, tracks, digits })
    }
}

/// "A list of one to four lists of five digits." Only a comma or a bracket parts
/// two numbers of a text, so its blanks can be left out.
fn tracks(value: &str) -> Option<(u8, [u8; 20])> {
    let mut bytes = value.bytes().filter(|&byte| !is_blank(byte));
    let mut digits = [0; 20];
    expect(&mut bytes, b'[')?;
    for (number, islands) in (1..).zip(digits.chunks_exact_mut(ISLANDS)) {
        track(&mut bytes, islands)?;
        if bytes.next()? == b']' {
            return Some((number, digits));
        }
    }
    None
}

/// "0 occupied, 1 free."
fn track(bytes: &mut impl Iterator<Item = u8>, islands: &mut [u8]) -> Option<()> {
    let mut before = b'[';
    for digit in islands {
        expect(bytes, before)?;
        *digit = bytes.next().filter(|byte| matches!(byte, b'0' | b'1'))? - b'0';
        before = b',';
    }
    expect(bytes, b']')
}

fn expect(bytes: &mut impl Iterator<Item = u8>, expected: u8) -> Option<()> {
    (bytes.next()? == expected).then_some(())
}

/// "One object with members `station`, `aspect` and `tracks`, no spaces and
/// members in that order"; or 16. "What we write we read back unchanged", so digits
/// of tracks that are not there are 0.
pub fn write(message: &Message) -> Result<Vec<u8>, u8> {
    let Message { station, aspect, tracks, digits } = message;
    let (written, past) = digits.split_at_checked(ISLANDS * usize::from(*tracks)).ok_or(NOT_OURS)?;
    let outside = written.iter().any(|&digit| digit > 1) || past.iter().any(|&digit| digit > 0);
    if written.is_empty() || *aspect > LAST_ASPECT || outside {
        return Err(NOT_OURS);
    }
    let mut text = format!(r#"{{"station":{station},"aspect":{aspect},"tracks":["#);
    for (place, [a, b, c, d, e]) in written.as_chunks().0.iter().enumerate() {
        let comma = if place > 0 { "," } else { "" };
        text += &format!("{comma}[{a},{b},{c},{d},{e}]");
    }
    text += "]}";
    Ok(text.into_bytes())
}

/// The answer and the length. "Writing touches no byte past the text; it answers
/// 16, then 12 a buffer too short, with length 0 and nothing written."
pub fn write_into(message: &Message, buffer: &mut [u8]) -> (u8, usize) {
    let text = match write(message) {
        Ok(text) => text,
        Err(refusal) => return (refusal, 0),
    };
    let Some(room) = buffer.get_mut(..text.len()) else {
        return (NO_ROOM, 0);
    };
    room.copy_from_slice(&text);
    (DONE, text.len())
}
