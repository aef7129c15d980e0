//! What a refusal returns beside its number, which the wrapper does not hand on. Of making, reading and stepping: a fresh station
//! of one track, with T1 to T4 equal to 1 and T5 to 2, and count 0. Of a text: zeros and no tracks. Of writing a message: length
//! 0.

include!("archive/declared.rs");

use degvuurel::{Message, Settings, Station};
use std::fs;
use std::path::Path;

const LEAST: Settings = Settings { tracks: 1, t1: 1, t2: 1, t3: 1, t4: 1, t5: 2 };

fn least() -> Station {
    Station::make(LEAST).expect("the least settings are within the limits")
}

#[test]
fn a_refused_making() {
    let good = Settings { tracks: 4, t1: 9, t2: 8, t3: 7, t4: 6, t5: 9 };
    let bad = [
        Settings { tracks: 0, ..good },
        Settings { tracks: 5, ..good },
        Settings { tracks: 255, ..good },
        Settings { t1: 0, ..good },
        Settings { t2: 0, ..good },
        Settings { t3: 0, ..good },
        Settings { t5: 0, ..good },
        Settings { t5: 7, ..good },
        Settings { t5: 8, ..good },
    ];
    for settings in bad {
        // SAFETY: any settings are taken.
        let made = unsafe { declared::degvuurel_make(settings) };
        assert_eq!((made.answer, made.station), (8, least()), "{settings:?}");
    }
}

#[test]
fn a_refused_message() {
    let nothing = Message { station: 0, aspect: 0, tracks: 0, digits: [0; 20] };
    let texts = [
        ("", 15),
        ("[", 15),
        (r#"{"station":7,"aspect":2,"tracks":[[1,1,1,1,1]]}x"#, 15),
        ("{}", 16),
        (r#"{"station":7,"aspect":2,"tracks":[[1,1,1,1,2]]}"#, 16),
        (r#"{"station":65536,"aspect":2,"tracks":[[1,1,1,1,1]]}"#, 16),
        (r#"{"station":7,"aspect":2,"tracks":[[1,1,1,1,1]],"tracks":"x","aspect":2,"station":7,"station":}"#, 15),
    ];
    for (text, answer) in texts {
        // SAFETY: the pointer and the length are one slice.
        let received = unsafe { declared::degvuurel_read_message(text.as_ptr(), text.len()) };
        assert_eq!((received.answer, received.message), (answer, nothing), "{text}");
    }
    let whole = Message { tracks: 1, digits: [0; 20], ..nothing };
    for (message, room, answer) in [(whole, 46, 12), (whole, 0, 12), (nothing, 100, 16), (Message { aspect: 6, ..whole }, 0, 16)] {
        let mut bytes = vec![0xEE; room];
        // SAFETY: the pointer and the length are one slice, which nobody else has.
        let written = unsafe { declared::degvuurel_write_message(message, bytes.as_mut_ptr(), bytes.len()) };
        assert_eq!((written.answer, written.length), (answer, 0), "{message:?} in {room} bytes");
        assert!(bytes.iter().all(|&byte| byte == 0xEE), "{message:?} in {room} bytes");
    }
}

/// An example with each of its bits turned in turn: most are refused, and each refusal returns the same.
#[test]
fn a_refused_reading_and_stepping() {
    let example = Path::new(env!("CARGO_MANIFEST_DIR")).join("../cases/two_trains.cea");
    let mut bytes = fs::read(example).expect("the example is there");
    let mut refused = [0; 15];
    for bit in 0..bytes.len() * 8 {
        bytes[bit / 8] ^= 1 << (bit % 8);
        for row in [0, 1, 14, 27, 28, usize::MAX] {
            // SAFETY: the pointer and the length are one slice.
            let [read, step, ahead, before] = unsafe {
                [
                    declared::degvuurel_read(bytes.as_ptr(), bytes.len()),
                    declared::degvuurel_step(bytes.as_ptr(), bytes.len(), row),
                    declared::degvuurel_forward(bytes.as_ptr(), bytes.len(), row),
                    declared::degvuurel_back(bytes.as_ptr(), bytes.len(), row),
                ]
            };
            for reading in [read, step, ahead, before].iter().filter(|reading| reading.answer != 0) {
                refused[usize::from(reading.answer)] += 1;
                assert_eq!((reading.count, reading.station), (0, least()), "bit {bit}, row {row}");
                assert_eq!(reading.entry != 0, reading.answer == 13, "bit {bit}, row {row}");
            }
        }
        bytes[bit / 8] ^= 1 << (bit % 8);
    }
    // Bytes that are cut or too many: 9, 11 and 12.
    bytes.resize(65_552, 0);
    for (length, answer) in [(0, 9), (15, 9), (25, 11), (65_537, 11), (65_544, 12), (65_552, 12)] {
        // SAFETY: the length is no more than that of the bytes.
        let [read, step] =
            unsafe { [declared::degvuurel_read(bytes.as_ptr(), length), declared::degvuurel_step(bytes.as_ptr(), length, 0)] };
        for reading in [read, step] {
            let said = (reading.answer, reading.entry, reading.count, reading.station);
            assert_eq!(said, (answer, 0, 0, least()), "{length} bytes");
        }
    }
    assert!([8, 9, 10, 13, 14].iter().all(|&answer: &usize| refused[answer] > 100), "{refused:?}");
}
