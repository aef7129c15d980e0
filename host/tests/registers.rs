//! Registers in lent bytes, by numbers typed from document 01: what a planner's text cannot say. Bytes that are no register, are
//! too few or too many, a place that is not the next, and a station of other settings.

#[path = "registers/sheets.rs"]
mod sheets;

use degvuurel::{append, report_in, start, IslandNumber, Refusal, Register, Report, Settings, Station, TrackNumber};

const WORKED: Settings = Settings { tracks: 2, t1: 300, t2: 300, t3: 300, t4: 0, t5: 600 };

/// No two fields alike, nor two bytes of a field.
const MANY: Settings = Settings { tracks: 3, t1: 258, t2: 772, t3: 2057, t4: 1286, t5: 1000 };
const MANY_HEADER: [u8; 16] = [67, 69, 65, 1, 0, 3, 2, 1, 4, 3, 9, 8, 6, 5, 232, 3];

/// The worked register of document 01, but that its clock is one tick, after which the aspect is still 1.
const SOUND: [u8; 56] = [
    67, 69, 65, 1, 0, 2, 44, 1, 44, 1, 44, 1, 0, 0, 88, 2, // header
    7, 0, 0, 0, 0, 0, 0, 0, // normalise
    1, 0, 4, 0, 0, 0, 0, 1, // occupied
    3, 0, 0, 0, 1, 0, 0, 1, // clock
    1, 0, 3, 0, 0, 0, 0, 2, // occupied
    1, 0, 3, 0, 0, 0, 6, 2, // occupied already
];

/// A byte at a place.
type Change = (usize, u8);

/// The sound register of so many bytes, those past its own 0, and with these changed.
fn changed(changes: &[Change], length: usize) -> Vec<u8> {
    let mut bytes = SOUND.to_vec();
    bytes.resize(bytes.len().max(length), 0);
    changes.iter().for_each(|&(at, byte)| bytes[at] = byte);
    bytes.truncate(length);
    bytes
}

fn number<T>(outcome: &Result<T, Refusal>) -> u8 {
    outcome.as_ref().map_or_else(|refusal| refusal.number(), |_| 0)
}

fn normalised(settings: Settings) -> Station {
    let mut station = Station::make(WORKED).expect("the settings are within their limits");
    station.take(Report::normalise()).expect("a fresh station is normalised");
    Station { settings, ..station }
}

/// The answer to appending. Where it is refused by 8 to 12, neither the bytes nor the station have changed.
fn appending(mut bytes: Vec<u8>, k: usize, settings: Settings, report: Report) -> u8 {
    let (old, mut station) = (bytes.clone(), normalised(settings));
    let outcome = append(&mut bytes, k, &mut station, report);
    assert!(outcome.is_entered() || (bytes == old && station == normalised(settings)), "{report} at {k}: something has changed");
    outcome.number()
}

/// The answers to appending at 0, to reading, to stepping to row 0, and to handing back row 1.
fn answers(changes: &[Change], length: usize) -> [u8; 4] {
    let bytes = changed(changes, length);
    let register = Register::new(&bytes);
    let [read, stepped] = [number(&register.read()), number(&register.step(0))];
    let handed = register.entry_answer(1).number();
    assert_eq!(number(&register.entry_bytes(1)), handed);
    [appending(bytes.clone(), 0, WORKED, Report::occupied(TrackNumber(0), IslandNumber(4))), read, stepped, handed]
}

#[test]
fn registers_that_are_none() {
    let table: &[(&[Change], usize, [u8; 4])] = &[
        // 9: shorter than 16 bytes, or another mark.
        (&[], 0, [9; 4]),
        (&[], 1, [9; 4]),
        (&[], 15, [9; 4]),
        (&[(0, 68)], 56, [9; 4]),
        (&[(1, 68)], 56, [9; 4]),
        (&[(2, 66)], 56, [9; 4]),
        (&[(0, 99), (1, 101), (2, 97)], 56, [9; 4]),
        (&[(0, 65), (2, 67)], 56, [9; 4]),
        // 10: a version that is not 1, in both bytes.
        (&[(3, 0)], 56, [10; 4]),
        (&[(3, 2)], 56, [10; 4]),
        (&[(3, 0), (4, 1)], 56, [10; 4]),
        (&[(4, 1)], 56, [10; 4]),
        // 11: a cut entry. Appending asks for room alone.
        (&[], 17, [12, 11, 11, 11]),
        (&[], 18, [12, 11, 11, 11]),
        (&[], 20, [12, 11, 11, 11]),
        (&[], 23, [12, 11, 11, 11]),
        (&[], 25, [0, 11, 11, 11]),
        (&[], 55, [0, 11, 11, 11]),
        (&[], 65_537, [0, 11, 11, 11]),
        // 12: 8,191 entries, and 8,192.
        (&[], 65_544, [0, 12, 12, 12]),
        (&[], 65_552, [0, 12, 12, 12]),
        // Of two that are wrong the first in the order decides.
        (&[(2, 66), (3, 2)], 56, [9; 4]),
        (&[(3, 2)], 15, [9; 4]),
        (&[(3, 2), (5, 5)], 56, [10; 4]),
        (&[(3, 2)], 25, [10; 4]),
        (&[(3, 2)], 65_544, [10; 4]),
        (&[], 65_545, [0, 11, 11, 11]),
        (&[(5, 5)], 25, [8, 11, 11, 11]),
        (&[(5, 5)], 65_544, [8, 12, 12, 12]),
        (&[(0, 68)], 65_544, [9; 4]),
        (&[(5, 5), (22, 1)], 56, [8; 4]),
        // Nothing is wrong: a header alone, whose row 1 is not there, and whole entries.
        (&[], 16, [12, 0, 0, 14]),
        (&[], 24, [0; 4]),
        (&[], 56, [0; 4]),
    ];
    for &(changes, length, expected) in table {
        assert_eq!(answers(changes, length), expected, "{changes:?} in {length} bytes");
    }
}

/// 8: no tracks, 5, 255; T1, T2, T3 of 0; T5 of 0, equal to T2, and one less.
const OUTSIDE: [(&[Change], Settings); 9] = [
    (&[(5, 0)], Settings { tracks: 0, ..WORKED }),
    (&[(5, 5)], Settings { tracks: 5, ..WORKED }),
    (&[(5, 255)], Settings { tracks: 255, ..WORKED }),
    (&[(6, 0), (7, 0)], Settings { t1: 0, ..WORKED }),
    (&[(8, 0), (9, 0)], Settings { t2: 0, ..WORKED }),
    (&[(10, 0), (11, 0)], Settings { t3: 0, ..WORKED }),
    (&[(14, 0), (15, 0)], Settings { t5: 0, ..WORKED }),
    (&[(14, 44), (15, 1)], Settings { t5: 300, ..WORKED }),
    (&[(14, 43), (15, 1)], Settings { t5: 299, ..WORKED }),
];

#[test]
fn settings_outside_their_limits() {
    for (changes, settings) in OUTSIDE {
        assert_eq!(answers(changes, 56), [8; 4], "{changes:?}");
        // In the station alone, and in both alike.
        assert_eq!(appending(SOUND.to_vec(), 0, settings, Report::normalise()), 8, "{settings:?}");
        assert_eq!(appending(changed(changes, 56), 0, settings, Report::normalise()), 8, "{settings:?}");
        for length in [0, 15, 18] {
            let mut bytes = vec![9; length];
            assert_eq!((number(&start(&mut bytes, settings)), bytes), (8, vec![9; length]), "{settings:?}");
        }
    }
}

/// 8: each of the six in either byte, though within its limits.
#[test]
fn header_settings_that_are_not_the_stations() {
    for change in [(5, 3), (6, 45), (7, 2), (8, 45), (9, 2), (10, 45), (11, 2), (12, 1), (13, 1), (14, 89), (15, 3)] {
        for (k, report) in [
            (0, Report::occupied(TrackNumber(0), IslandNumber(4))),
            (5, Report::occupied(TrackNumber(0), IslandNumber(4))),
            (8190, Report::clock(0)),
        ] {
            assert_eq!(appending(changed(&[change], 56), k, WORKED, report), 8, "{change:?}");
        }
    }
}

/// 12: an entry k from 8,190 on, though there is room, or fewer than 16 + 8 (k + 1) bytes.
#[test]
fn room_for_an_entry() {
    let no_kind = Report { kind: 8, a: 0, b: 0, spare: 0, value: 0 };
    for (length, k) in [
        (16, 0),
        (23, 0),
        (56, 5),
        (63, 5),
        (56, 8189),
        (65_535, 8189),
        (56, 8190),
        (65_544, 8190),
        (65_552, 8191),
        (56, usize::MAX),
    ] {
        assert_eq!(
            appending(changed(&[], length), k, WORKED, Report::occupied(TrackNumber(0), IslandNumber(4))),
            12,
            "{k} in {length} bytes"
        );
        assert_eq!(appending(changed(&[], length), k, WORKED, no_kind), 12, "{k} in {length} bytes");
    }
    for (length, k) in [(24, 0), (25, 0), (56, 4), (64, 5), (65_536, 8189), (65_544, 8189), (65_537, 0)] {
        assert_eq!(
            appending(changed(&[], length), k, WORKED, Report::occupied(TrackNumber(0), IslandNumber(4))),
            0,
            "{k} in {length} bytes"
        );
    }
    for length in [0, 1, 15] {
        let mut bytes = vec![9; length];
        assert_eq!((number(&start(&mut bytes, WORKED)), bytes), (12, vec![9; length]));
    }
}

/// Where each byte stands, and that no other is written.
#[test]
fn bytes_that_are_written() {
    for length in [16, 18] {
        let mut bytes = vec![9; length];
        assert_eq!(number(&start(&mut bytes, MANY)), 0);
        assert_eq!(bytes, [&MANY_HEADER[..], &[9; 2][..length - 16]].concat());
    }
    // Earlier entries are not read: here they are all nines.
    let mut bytes = vec![9; 65_544];
    assert_eq!(number(&start(&mut bytes, WORKED)), 0);
    let mut station = normalised(WORKED);
    let entries = [
        (1, Report::occupied(TrackNumber(0), IslandNumber(4)), [1, 0, 4, 0, 0, 0, 0, 1]),
        (8189, Report::clock(258), [3, 0, 0, 0, 2, 1, 0, 1]),
    ];
    for (k, report, expected) in entries {
        assert_eq!(append(&mut bytes, k, &mut station, report).number(), 0);
        assert_eq!(bytes[16 + 8 * k..24 + 8 * k], expected);
    }
    assert_eq!(bytes.iter().filter(|&&byte| byte == 9).count(), 65_544 - 16 - 2 * 8);
    assert_eq!(bytes[..16], SOUND[..16]);
}

/// "Bytes that are missing count as 0", and the greatest.
#[test]
fn bytes_that_are_read() {
    let greatest = Settings { tracks: 255, t1: 65535, t2: 65535, t3: 65535, t4: 65535, t5: 65535 };
    let none = Settings { tracks: 0, t1: 0, t2: 0, t3: 0, t4: 0, t5: 0 };
    let cut = Settings { t5: 232, ..MANY };
    for (bytes, settings) in [(&MANY_HEADER[..], MANY), (&[255; 16], greatest), (&MANY_HEADER[..15], cut), (&[], none)] {
        assert_eq!(Register::new(bytes).settings(), settings);
    }
    let fields = |report: Report| ([report.kind, report.a, report.b, report.spare], report.value);
    let entries: [(&[u8], _); 4] = [
        (&[1, 2, 3, 4, 5, 6, 7, 8], ([1, 2, 3, 4], 1541)),
        (&[255; 8], ([255; 4], 65535)),
        (&[1, 2, 3, 4, 5], ([1, 2, 3, 4], 5)),
        (&[], ([0; 4], 0)),
    ];
    for (bytes, expected) in entries {
        assert_eq!(fields(report_in(bytes)), expected);
    }
    assert_eq!(Register::new(&MANY_HEADER).step(0), Station::make(MANY));
}

/// 13: the first entry whose answer or aspect is another is named; in stepping, among the first k entries only.
#[test]
fn entries_that_the_replay_does_not_give() {
    let table: [(&[Change], usize); 7] = [
        (&[(22, 1)], 1),
        (&[(23, 1)], 1),
        (&[(38, 6)], 3),
        (&[(39, 0)], 3),
        (&[(54, 0)], 5),
        (&[(55, 1)], 5),
        (&[(30, 6), (47, 0)], 2),
    ];
    for (changes, named) in table {
        let bytes = changed(changes, 56);
        let register = Register::new(&bytes);
        let refused = |refusal: Refusal| (refusal.number(), refusal.entry());
        assert_eq!(register.read().map_err(refused), Err((13, Some(named))), "{changes:?}");
        for row in 0..=5 {
            let expected = if row < named { Register::new(&SOUND).step(row).map_err(refused) } else { Err((13, Some(named))) };
            assert_eq!(register.step(row).map_err(refused), expected, "{changes:?}, row {row}");
            // What is handed back is not replayed.
            assert_eq!(register.entry_answer(row).number(), if row == 0 { 14 } else { 0 });
        }
        assert_eq!(register.step(6).map_err(refused), Err((14, None)), "{changes:?}");
    }
    assert_eq!(Register::new(&changed(&[(24, 1), (25, 9)], 56)).entry_bytes(2), Ok(&[1, 9, 4, 0, 0, 0, 0, 1][..]));
}

/// 14: a row above the count; handing back row 0.
#[test]
fn rows_that_are_not_there() {
    for (length, count) in [(16, 0), (24, 1), (56, 5), (65_536, 8190)] {
        let bytes = changed(&[], length);
        let register = Register::new(&bytes);
        for row in [count + 1, count + 2, 8191, usize::MAX] {
            assert_eq!([number(&register.step(row)), number(&register.entry_bytes(row))], [14, 14], "row {row} of {count}");
        }
        assert_eq!([number(&register.step(0)), number(&register.entry_bytes(0))], [0, 14]);
        assert_eq!(number(&register.entry_bytes(count)), if count == 0 { 14 } else { 0 });
    }
    // What is wrong with the register comes first.
    for (changes, length, answer) in [(&[(5, 5)][..], 56, 8), (&[], 25, 11), (&[], 65_544, 12)] {
        let bytes = changed(changes, length);
        let register = Register::new(&bytes);
        assert_eq!(
            [number(&register.step(8192)), number(&register.entry_bytes(0)), number(&register.entry_bytes(8192))],
            [answer; 3]
        );
    }
}
