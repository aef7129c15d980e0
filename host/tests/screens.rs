//! The library held against the rows of texts and messages that are typed from document 02 and RFC 8259.

// Only its messages are asked here.
#[allow(dead_code, unused_imports)]
mod paper;
#[path = "paper_rows/screen.rs"]
mod rows;

use degvuurel::{Message, MESSAGE, MESSAGE_READ};
use paper::screen;

fn read(text: &[u8]) -> (u8, screen::Message) {
    match Message::read(text) {
        Ok(Message { station, aspect, tracks, digits }) => (0, screen::Message { station, aspect, tracks, digits }),
        Err(refusal) => (refusal.number(), screen::Message::default()),
    }
}

fn write_into(message: &screen::Message, buffer: &mut [u8]) -> (u8, usize) {
    let screen::Message { station, aspect, tracks, digits } = *message;
    match (Message { station, aspect, tracks, digits }).write(buffer) {
        Ok(text) => (0, text.len()),
        Err(refusal) => (refusal.number(), 0),
    }
}

#[test]
fn texts_are_read_as_they_should_be() {
    rows::hold_reading(read);
}

#[test]
fn messages_are_written_as_they_should_be() {
    rows::hold_writing(write_into);
}

#[test]
fn the_longest_message_and_the_longest_text() {
    let longest = Message { station: 65535, aspect: 5, tracks: 4, digits: [1; 20] };
    let text = longest.text().expect("it is within its ranges");
    assert_eq!(text.len(), MESSAGE);
    let padded = |length: usize| format!("{text:length$}").into_bytes();
    assert_eq!(Message::read(&padded(MESSAGE_READ)), Ok(longest));
    assert_eq!(Message::read(&padded(MESSAGE_READ + 1)).unwrap_err().number(), 15);
}

#[test]
fn a_message_in_words() {
    let text = r#"{"tracks":[[1,1,1,1,0],[1,1,1,1,1]],"aspect":2,"station":7}"#;
    let message: Message = text.parse().expect("it is a message");
    assert_eq!(message.to_string(), "station 7 aspect 2 tracks 11110 11111");
    assert_eq!("[]".parse::<Message>().unwrap_err().number(), 16);
}
