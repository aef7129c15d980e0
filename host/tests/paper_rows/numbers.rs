//! The numbers 1 to 8 of reports and settings, with the order of their tests.

use super::*;

/// Reports and their numbers where track 0 has its island 4 occupied and its
/// detector 1 failed; wrong in later fields too, so that the order shows.
fn tried() -> [(Report, u8); 26] {
    [
        (spared(0, 9, 9, 9), 1),
        (spared(8, 9, 9, 9), 1),
        (spared(1, 9, 9, 0), 2),
        (report(1, 9, 9, 1), 2),
        (report(2, 9, 9, 1), 2),
        (report(3, 0, 0, 0), 2),
        (report(3, 1, 0, 1), 2),
        (report(3, 0, 1, 1), 2),
        (report(4, 9, 9, 1), 2),
        (report(5, 9, 9, 1), 2),
        (report(6, 9, 1, 0), 2),
        (report(6, 9, 0, 1024), 2),
        (report(7, 1, 0, 0), 2),
        (report(7, 0, 1, 0), 2),
        (report(7, 0, 0, 1), 2),
        (report(1, 2, 9, 0), 3),
        (report(5, 255, 255, 0), 3),
        (report(1, 1, 5, 0), 4),
        (report(2, 0, 255, 0), 4),
        (report(6, 2, 0, 1023), 5),
        (report(1, 0, 4, 0), 6),
        (report(2, 0, 3, 0), 6),
        (report(4, 0, 1, 0), 6),
        (report(5, 0, 0, 0), 6),
        (report(7, 0, 0, 0), 7),
        (report(6, 1, 0, 1023), 0),
    ]
}

#[test]
fn numbers_of_reports_in_order() {
    let mut station = normalised(PLAIN);
    after(&mut station, &[(1, 0, 4, 0), (4, 0, 1, 0)]);
    for (report, answer) in tried() {
        let mut tried = station;
        assert_eq!((tried.answer(report), tried.take(report)), (answer, answer), "{report:?}");
        assert_eq!(tried == station, answer != 0, "{report:?}");
    }
    after(&mut station, &[(5, 0, 1, 0)]);
    assert_eq!((station.aspect(), station.take(report(7, 0, 0, 0))), (5, 7));
    after(&mut station, &[(2, 0, 4, 0), (4, 0, 1, 0)]);
    assert_eq!(station.take(report(7, 0, 0, 0)), 7);
    after(&mut station, &[(5, 0, 1, 0), (7, 0, 0, 0)]);
    assert_eq!(station, normalised(PLAIN));
}

fn outside() -> [Settings; 7] {
    [
        Settings { tracks: 0, ..PLAIN },
        Settings { tracks: 5, ..PLAIN },
        Settings { t1: 0, ..PLAIN },
        Settings { t2: 0, ..PLAIN },
        Settings { t3: 0, ..PLAIN },
        Settings { t5: 300, ..PLAIN },
        Settings { t2: 0, t5: 0, ..PLAIN },
    ]
}

#[test]
fn settings_outside_their_limits() {
    assert_eq!([PLAIN, REFUSED].map(settings_answer), [0, 0]);
    for settings in outside() {
        assert_eq!(settings_answer(settings), 8);
        assert_eq!(make(settings), (8, make(REFUSED).1));
        let mut station = Station { settings, fault: false, ..make(PLAIN).1 };
        let old = station;
        assert_eq!((station.take(spared(0, 0, 0, 0)), station), (8, old));
        assert_eq!((station.aspect(), station.heads()), (5, [0, 0]));
        assert_eq!((station.zones(), station.presence()), ([0; 5], [true; 4]));
        assert_eq!((start(&mut [], settings), start(&mut [0; 16], settings)), (8, 8));
    }
    assert_eq!(start(&mut [0; 15], PLAIN), 12);
}
