//! What the information desk is told, and what comes back: document 02, request 1.

use crate::answer::{Answer, Refusal};
use crate::aspect::Aspect;
use crate::declared;
use crate::structs::{Message, Station, MESSAGE};
use std::fmt;
use std::str::{self, FromStr};

impl Message {
    /// What is told of a station with this number. Of one whose settings are outside their limits: aspect 5, and four tracks of 0.
    #[must_use]
    pub fn of(number: u16, station: &Station) -> Message {
        // SAFETY: any number and any station are taken.
        unsafe { declared::degvuurel_message_of(number, *station) }
    }

    /// Reads any RFC 8259 text in UTF-8 of at most [`MESSAGE_READ`](crate::MESSAGE_READ) bytes, with lists and objects at most 8
    /// deep. The first member of each of our names in the outermost object counts, names compared after escapes; other members
    /// are skipped.
    ///
    /// # Errors
    ///
    /// 15 where it is no such text; 16 where one of our members is missing, of another form or outside its range.
    pub fn read(text: &[u8]) -> Result<Message, Refusal> {
        // SAFETY: the pointer and the length are one slice.
        let received = unsafe { declared::degvuurel_read_message(text.as_ptr(), text.len()) };
        Answer::given(received.answer).done().map(|()| received.message)
    }

    /// Writes the text at the start of the bytes, touches none past it, and returns it. [`MESSAGE`] bytes are always enough.
    ///
    /// # Errors
    ///
    /// 16 where a field is outside its range, then 12 where the text does not fit; nothing is written.
    pub fn write<'b>(&self, bytes: &'b mut [u8]) -> Result<&'b str, Refusal> {
        // SAFETY: the pointer and the length are one slice, which nobody else has.
        let written = unsafe { declared::degvuurel_write_message(*self, bytes.as_mut_ptr(), bytes.len()) };
        Answer::given(written.answer).done()?;
        Ok(str::from_utf8(&bytes[..written.length]).expect("the library writes plain text"))
    }

    /// The text.
    ///
    /// # Errors
    ///
    /// 16 where a field is outside its range.
    pub fn text(&self) -> Result<String, Refusal> {
        self.write(&mut [0; MESSAGE]).map(str::to_owned)
    }

    /// The aspect by name, if there is one of its number.
    #[must_use]
    pub fn aspect(&self) -> Option<Aspect> {
        Aspect::of(self.aspect)
    }

    /// The digits of each track, as many as the message has room for.
    pub fn tracks(&self) -> impl Iterator<Item = &[u8]> {
        self.digits.chunks(5).take(usize::from(self.tracks))
    }
}

impl FromStr for Message {
    type Err = Refusal;

    fn from_str(text: &str) -> Result<Message, Refusal> {
        Message::read(text.as_bytes())
    }
}

/// `station 7 aspect 2 tracks 11110 11111`
impl fmt::Display for Message {
    fn fmt(&self, f: &mut fmt::Formatter<'_>) -> fmt::Result {
        let mut words = format!("station {} aspect {} tracks", self.station, self.aspect);
        for track in self.tracks() {
            words.push(' ');
            words.extend(track.iter().map(u8::to_string));
        }
        f.pad(&words)
    }
}
