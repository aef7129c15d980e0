//! Rows of texts for the passenger screens, typed from document 02 and RFC 8259: a text, the answer, the message. They hold for
//! whoever reads and writes such texts.

#[path = "screen_members.rs"]
mod members;
#[path = "screen_text.rs"]
mod text;
#[path = "screen_values.rs"]
mod values;

use super::paper::screen::Message;

/// What a reading gives back.
type Read = (u8, Message);

const NOT_TEXT: Read = (15, NOTHING);
const NOT_OURS: Read = (16, NOTHING);
const NOTHING: Message = Message { station: 0, aspect: 0, tracks: 0, digits: [0; 20] };

/// What `FIRST` says, which most rows add to.
const FIRST_READ: Read = read(1, 2, &[[1, 0, 1, 0, 1]]);
const FIRST: &[u8] = br#"{"station":1,"aspect":2,"tracks":[[1,0,1,0,1]]}"#;

const fn read(station: u16, aspect: u8, tracks: &[[u8; 5]]) -> Read {
    let mut digits = [0; 20];
    let mut at = 0;
    while at < 5 * tracks.len() {
        digits[at] = tracks[at / 5][at % 5];
        at += 1;
    }
    (0, Message { station, aspect, tracks: tracks.len() as u8, digits })
}

struct Row {
    text: Vec<u8>,
    expected: Read,
}

fn rows() -> Vec<Row> {
    let mut rows = members::rows();
    rows.extend(text::rows());
    rows
}

/// Panics with the rows that are read otherwise.
pub fn hold_reading(read: impl Fn(&[u8]) -> Read) {
    let rows = rows();
    let others = rows.iter().filter(|row| read(&row.text) != row.expected);
    let words: Vec<String> = others.map(|row| format!("{:?} read as {:?}", row.text.escape_ascii(), read(&row.text))).collect();
    assert!(words.is_empty(), "{} of {} rows:\n{}", words.len(), rows.len(), words.join("\n"));
}

/// The longest text of ours.
const LONGEST: &[u8] = br#"{"station":65535,"aspect":5,"tracks":[[1,1,1,1,1],[0,0,0,0,0],[1,0,0,0,0],[0,0,0,0,1]]}"#;
const LONGEST_READ: Read = read(65535, 5, &[[1; 5], [0; 5], [1, 0, 0, 0, 0], [0, 0, 0, 0, 1]]);

const WRITTEN: [(Read, &[u8]); 5] = [
    (FIRST_READ, FIRST),
    (LONGEST_READ, LONGEST),
    (read(0, 0, &[[0; 5]]), br#"{"station":0,"aspect":0,"tracks":[[0,0,0,0,0]]}"#),
    (read(10, 4, &[[1; 5], [0, 1, 1, 1, 1]]), br#"{"station":10,"aspect":4,"tracks":[[1,1,1,1,1],[0,1,1,1,1]]}"#),
    // A station refused with 8.
    (read(7, 5, &[[0; 5]; 4]), br#"{"station":7,"aspect":5,"tracks":[[0,0,0,0,0],[0,0,0,0,0],[0,0,0,0,0],[0,0,0,0,0]]}"#),
];

/// Messages that are not written, whatever the buffer.
fn refused() -> Vec<Message> {
    let (_, whole) = LONGEST_READ;
    let mut refused = vec![NOTHING];
    refused.extend([6, 7, 255].map(|aspect| Message { aspect, ..whole }));
    refused.extend([0, 5, 51, 52, 255].map(|tracks| Message { tracks, ..whole }));
    for (tracks, last) in [(1, 4), (2, 9), (3, 14), (4, 19)] {
        for (at, digit) in [(0, 2), (last, 2), (last, 255)] {
            let mut digits = [0; 20];
            digits[at] = digit;
            refused.push(Message { tracks, digits, ..whole });
        }
    }
    // Digits of tracks that are not there would not be read back.
    for at in [15, 19] {
        let mut digits = [1; 20];
        digits[15..].fill(0);
        digits[at] = 1;
        refused.push(Message { tracks: 3, digits, ..whole });
    }
    refused
}

/// Panics where a message is written otherwise, or a byte changes that is not the text's.
pub fn hold_writing(write: impl Fn(&Message, &mut [u8]) -> (u8, usize)) {
    for ((_, message), text) in WRITTEN {
        for room in 0..text.len() + 3 {
            let mut buffer = vec![0xEE; room];
            let written = if room < text.len() { (12, 0) } else { (0, text.len()) };
            assert_eq!(write(&message, &mut buffer), written, "{message:?} in {room} bytes");
            let (start, rest) = buffer.split_at(written.1);
            assert_eq!(start, &text[..written.1], "{message:?}");
            assert!(rest.iter().all(|&byte| byte == 0xEE), "{message:?} in {room} bytes");
        }
    }
    for message in refused() {
        for room in [0, 46, 87, 200] {
            let mut buffer = vec![0xEE; room];
            assert_eq!(write(&message, &mut buffer), (16, 0), "{message:?} in {room} bytes");
            assert!(buffer.iter().all(|&byte| byte == 0xEE), "{message:?} in {room} bytes");
        }
    }
}
