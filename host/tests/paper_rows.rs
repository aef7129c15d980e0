//! The independent implementation held against the rows of documents 01 and 02, their numbers and their order, and that nothing
//! panics: who judges the library is judged here first.

mod paper;

use paper::*;

#[path = "paper_rows/easy.rs"]
mod easy;
#[path = "paper_rows/numbers.rs"]
mod numbers;
#[path = "paper_rows/registers.rs"]
mod registers;
#[path = "paper_rows/screen.rs"]
mod screen_rows;
#[path = "paper_rows/total.rs"]
mod total;

const PLAIN: Settings = Settings { tracks: 2, t1: 300, t2: 300, t3: 300, t4: 0, t5: 600 };
const REFUSED: Settings = Settings { tracks: 1, t1: 1, t2: 1, t3: 1, t4: 1, t5: 2 };

fn report(kind: u8, a: u8, b: u8, value: u16) -> Report {
    Report { kind, a, b, spare: 0, value }
}

fn spared(kind: u8, a: u8, b: u8, value: u16) -> Report {
    Report { spare: 1, ..report(kind, a, b, value) }
}

fn normalised(settings: Settings) -> Station {
    let (answer, mut station) = make(settings);
    assert_eq!((answer, station.take(report(7, 0, 0, 0))), (0, 0));
    station
}

/// Takes accepted reports (kind, a, b, value) and gives the outputs after them.
fn after(station: &mut Station, reports: &[(u8, u8, u8, u16)]) -> u16 {
    for &(kind, a, b, value) in reports {
        assert_eq!(station.take(report(kind, a, b, value)), 0);
    }
    outputs(station.aspect())
}

/// A register of these reports, appended from a fresh station, and that station.
fn register(settings: Settings, reports: &[Report]) -> (Vec<u8>, Station) {
    let mut bytes = vec![0xEE; 16 + 8 * reports.len()];
    assert_eq!(start(&mut bytes, settings), 0);
    let mut station = make(settings).1;
    for (k, &report) in reports.iter().enumerate() {
        let answer = station.answer(report);
        assert_eq!(append(&mut bytes, k, &mut station, report), answer);
    }
    (bytes, station)
}

fn worked() -> Vec<Report> {
    [(7, 0, 0, 0), (1, 0, 4, 0), (3, 0, 0, 300), (1, 0, 3, 0), (1, 0, 3, 0)]
        .map(|(kind, a, b, value)| report(kind, a, b, value))
        .to_vec()
}

const C5: [(u8, u8, u8, u16); 7] =
    [(1, 0, 4, 0), (1, 0, 3, 0), (2, 0, 4, 0), (1, 0, 2, 0), (1, 0, 1, 0), (2, 0, 3, 0), (2, 0, 2, 0)];

#[test]
fn c1_to_c6_one_train() {
    let (answer, mut station) = make(PLAIN);
    assert_eq!((answer, station.aspect(), station.heads()), (0, 5, [0, 0]));
    assert_eq!(station.take(report(7, 0, 0, 0)), 0);
    assert_eq!(station.aspect(), 0);
    assert_eq!(after(&mut station, &C5[..1]), 34);
    assert_eq!(after(&mut station, &C5[1..2]), 72);
    assert_eq!(after(&mut station, &C5[2..]), 1);
    assert_eq!(station.presence(), [true, false, false, false]);
    assert_eq!(after(&mut station, &[(1, 0, 0, 0), (2, 0, 1, 0), (3, 0, 0, 299)]), 1);
    assert_eq!(station.presence(), [false; 4]);
    assert_eq!(after(&mut station, &[(3, 0, 0, 1)]), 260);
}

#[test]
fn c7_to_c11() {
    let mut station = normalised(PLAIN);
    after(&mut station, &C5);
    assert_eq!(after(&mut station, &[(1, 1, 4, 0)]), 152);
    assert_eq!(after(&mut station, &[(1, 0, 0, 0), (2, 0, 1, 0), (1, 1, 3, 0), (2, 1, 4, 0)]), 72);
    assert_eq!(station.take(report(7, 0, 0, 0)), 7);

    let mut station = normalised(Settings { t4: 50, ..PLAIN });
    assert_eq!(after(&mut station, &[(1, 0, 4, 0), (1, 1, 0, 0), (2, 1, 0, 0)]), 152);
    assert_eq!(after(&mut station, &[(3, 0, 0, 49)]), 152);
    assert_eq!(after(&mut station, &[(3, 0, 0, 1)]), 34);

    let mut station = normalised(PLAIN);
    assert_eq!(after(&mut station, &[(1, 0, 3, 0), (3, 0, 0, 599)]), 260);
    assert_eq!(after(&mut station, &[(3, 0, 0, 1)]), 0);
    assert_eq!((after(&mut station, &[(2, 0, 3, 0)]), station.aspect()), (0, 5));
}

#[test]
fn c12_to_c14() {
    assert_eq!([8, 48, 64].map(|condition| head(152, condition)), [128, 0, 24]);
    assert_eq!(head(152, 8 | 64), 0);
    assert_eq!(head(152, 1 | 16), 128);
    assert_eq!([256, 512].map(|condition| head(511, condition)), [0, 0]);
    assert_eq!(head(0xFFFF, 0xFC00), 511);
    assert_eq!(warning(155, 2), (0, 6028));
    assert_eq!([0, 6].map(|m| advance(155, m)), [(0, 12_917), (0, 15_500)]);
    assert_eq!(warning(126, 1), (0, 2450));
    // The corners of the limits, and one step past each limit.
    assert_eq!([(1, 0), (350, 60)].map(|(speed, message)| advance(speed, message)), [(0, 84), (0, 87_500)]);
    assert_eq!([(1, 1), (350, 4)].map(|(speed, tracks)| warning(speed, tracks)), [(0, 20), (0, 27_223)]);
    for (speed, message) in [(0, 0), (0, 60), (351, 0), (351, 60), (1, 61), (350, 61), (1, 256), (1, 65535), (65535, 65535)] {
        assert_eq!(advance(speed, message), (8, 0));
    }
    for (speed, tracks) in [(0, 1), (0, 4), (351, 1), (351, 4), (1, 0), (350, 0), (1, 5), (350, 5), (1, 255), (65535, 255)] {
        assert_eq!(warning(speed, tracks), (8, 0));
    }
    assert_eq!([0, 1, 2, 3, 4, 5, 6, 255].map(outputs), [1, 34, 72, 152, 260, 0, 0, 0]);
}

#[test]
fn worked_sheet() {
    let (mut bytes, _) = register(PLAIN, &worked());
    let sheet = "entry zones outputs answer\n1 11111 100000000 0\n2 11110 010001000 0\n\
                 3 11110 001000001 0\n4 11100 000100100 0\n5 11100 000100100 6\n";
    assert_eq!(String::from_utf8(print(&bytes)).unwrap(), sheet);
    assert_eq!(print(&bytes[..16]), b"entry zones outputs answer\n");
    assert_eq!(print(&bytes[..15]), b"refused 9\n");
    assert_eq!(print(&bytes[..17]), b"refused 11\n");
    assert_eq!(print(&[0; 65_537]), b"refused 12\n");
    assert_eq!(print(&[0; 65_536]), b"refused 9\n");
    bytes[16 + 8 + 7] ^= 1;
    assert_eq!(print(&bytes), b"refused 13 at 2\n");
}

#[test]
fn texts_of_the_screens() {
    screen_rows::hold_reading(screen::read);
    screen_rows::hold_writing(screen::write_into);
}

#[test]
fn what_the_screens_are_sent() {
    let mut station = normalised(PLAIN);
    after(&mut station, &[(1, 0, 4, 0), (1, 1, 0, 0)]);
    station.tracks[2][0].occupied = true;
    let mut digits = [0; 20];
    digits[..10].copy_from_slice(&[1, 1, 1, 1, 0, 0, 1, 1, 1, 1]);
    assert_eq!(screen::Message::of(65535, &station), screen::Message { station: 65535, aspect: 3, tracks: 2, digits });
    for tracks in [0, 5, 255] {
        station.settings.tracks = tracks;
        let sent = screen::Message { station: 7, aspect: 5, tracks: 4, digits: [0; 20] };
        assert_eq!(screen::Message::of(7, &station), sent);
    }
}
