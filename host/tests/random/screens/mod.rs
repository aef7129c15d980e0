//! Document 02, "Aspect to the passenger screens": texts and messages by chance, read and written by the library and by the paper.

mod damage;
mod members;
mod strings;
mod texts;
mod trial;
mod values;
mod writing;

pub use trial::trial;
pub use writing::try_case as try_writing;

use crate::paper::screen;
use degvuurel::Message;

/// The library's message in the paper's type.
pub fn message(message: Message) -> screen::Message {
    let Message { station, aspect, tracks, digits } = message;
    screen::Message { station, aspect, tracks, digits }
}

/// What the library reads. Refused, the package hands out no message: the paper's refused reading stands in its place.
pub fn read(text: &[u8]) -> (u8, screen::Message) {
    match Message::read(text) {
        Ok(read) => (0, message(read)),
        Err(refusal) => (refusal.number(), screen::Message::default()),
    }
}

/// What the library writes.
pub fn write_into(written: &screen::Message, buffer: &mut [u8]) -> (u8, usize) {
    let screen::Message { station, aspect, tracks, digits } = *written;
    match (Message { station, aspect, tracks, digits }).write(buffer) {
        Ok(text) => (0, text.len()),
        Err(refusal) => (refusal.number(), 0),
    }
}
