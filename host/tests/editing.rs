//! What the wrapper tells by itself, held to what the library answers: which answers give a report its row, and which reports are of a
//! kind.

use degvuurel::{Answer, Kind, Recorder, Report, Settings, Station, MOST};

const SETTINGS: Settings = Settings { tracks: 4, t1: 300, t2: 300, t3: 300, t4: 0, t5: 600 };

/// One report more than a register has is answered by 12, and the recorder stays as it is.
#[test]
fn a_full_recorder_stays_as_it_is() {
    let mut recorder = Recorder::start(SETTINGS).expect("the settings are good");
    for row in 1..=MOST {
        // A clock of no ticks is refused, and has its row.
        assert_eq!((recorder.append(Report::clock(0)), recorder.count()), (Answer::BadField, row));
    }
    let full = recorder.clone();
    for report in [Report::normalise(), Report::clock(0)] {
        assert_eq!(recorder.append(report), Answer::NoRoom);
        assert_eq!(recorder, full);
    }
    assert_eq!(recorder.undo_to(MOST - 1), Ok(vec![Report::clock(0)]));
    assert_eq!((recorder.append(Report::normalise()), recorder.count()), (Answer::Done, MOST));
}

/// A report has its row where the answer is 0 to 7.
#[test]
fn answers_that_give_a_row() {
    let entered: Vec<u8> = Answer::ALL.iter().filter(|answer| answer.is_entered()).map(|answer| answer.number()).collect();
    assert_eq!(entered, [0, 1, 2, 3, 4, 5, 6, 7]);
}

/// What is of no kind here the library refuses by 1 or 2; and what it refuses so is of no kind, but for a clock of no ticks and a
/// condition above 1023, which can be named.
#[test]
fn a_kind_is_what_the_library_takes_for_one() {
    let station = Station::make(SETTINGS).expect("the settings are good");
    let fields = [0, 1, 4, 5, 255]
        .map(|a| [0, 1, 4, 5, 255].map(|b| [0, 1, 255].map(|spare| [0, 1, 1023, 1024, 65535].map(|value| (a, b, spare, value)))));
    for kind in 0..=255 {
        for &(a, b, spare, value) in fields.iter().flatten().flatten().flatten() {
            let report = Report { kind, a, b, spare, value };
            let refused = matches!(station.answer(report), Answer::NoSuchKind | Answer::BadField);
            match Kind::try_from(report) {
                Ok(named) => {
                    let out_of_range = match named {
                        Kind::Clock { ticks } => ticks == 0,
                        Kind::Head { condition, .. } => condition.bits() > 1023,
                        _ => false,
                    };
                    assert_eq!((Report::from(named), refused), (report, out_of_range));
                }
                Err(_) => assert!(refused, "{report} is of no kind, and is not refused so"),
            }
        }
    }
}
