//! The points "easy to get wrong", and a few beside them.

use super::*;

fn station_after(settings: Settings, reports: &[(u8, u8, u8, u16)]) -> Station {
    let mut station = make(settings).1;
    for &(kind, a, b, value) in [(7, 0, 0, 0)].iter().chain(reports) {
        assert_eq!(station.take(report(kind, a, b, value)), 0);
    }
    station
}

#[test]
fn a_mark_is_set_once() {
    let mut station = station_after(PLAIN, &[(1, 0, 2, 0), (1, 0, 1, 0)]);
    assert!(station.tracks[0][1].leaving);
    assert_eq!(station.take(report(2, 0, 2, 0)), 0);
    assert_eq!((station.tracks[0][1].leaving, station.aspect()), (true, 0));
    // A second train behind the first: its advance island approaches, so the
    // warning island does, and the advance island of a leaving train leaves.
    let station = station_after(PLAIN, &[(1, 0, 2, 0), (1, 0, 4, 0), (1, 0, 3, 0), (1, 0, 1, 0), (1, 0, 0, 0)]);
    assert_eq!(station.tracks[0].map(|island| island.leaving), [true, true, false, false, false]);
}

#[test]
fn the_advance_distance_is_rounded_up_once() {
    let rows = [
        // The parts apart: 12,917 + 2,584 = 15,501. One more than rounded down: 15,501.
        (155, 6, 15_500),
        // Rounded down: 88. The parts apart: 84 + 6 = 90.
        (1, 2, 89),
        // To the nearest: 86. The parts apart, the second rounded down: 84 + 2 = 86.
        (1, 1, 87),
        // Ten times the whole metres: 140, nine too many.
        (1, 17, 131),
        // The speed first: 97 or 98 m/s, 86,330 or 87,220; 972 or 973 dm/s, 86,508 or 86,597.
        (350, 59, 86_528),
        // The greatest distance that fits 16 bits.
        (337, 40, 65_528),
        // The least that does not: 9 is left in 16 bits.
        (347, 38, 65_545),
    ];
    for (speed, message, decimetres) in rows {
        assert_eq!(advance(speed, message), (0, decimetres), "{speed} km/h, {message} s");
    }
}

#[test]
fn the_warning_distance_is_rounded_up_once() {
    let rows = [
        // Rounded down: 38. Track by track: 2 * 20 = 40.
        (1, 2, 39),
        // To the nearest: 58. Track by track: 3 * 20 = 60.
        (1, 3, 59),
        // Track by track: 4 * 20 = 80.
        (1, 4, 78),
        // Ten times the whole metres: 340, nine too many.
        (17, 1, 331),
        // The speed first: 43 or 44 m/s, 3,010 or 3,080; 430 or 431 dm/s, 3,010 or 3,017.
        (155, 1, 3014),
        // The product in 16 bits, over 18 or halved over 9: 30.
        (188, 2, 7312),
    ];
    for (speed, tracks, decimetres) in rows {
        assert_eq!(warning(speed, tracks), (0, decimetres), "{speed} km/h, {tracks} tracks");
    }
}

#[test]
fn the_tick_that_ends_the_condition_keeps_the_hold() {
    let reports = [(1, 0, 4, 0), (1, 1, 4, 0), (3, 0, 0, 300)];
    let mut station = station_after(Settings { t4: 1, ..PLAIN }, &reports);
    assert_eq!((station.hold, station.aspect()), (1, 3));
    assert_eq!(station.take(report(3, 0, 0, 1)), 0);
    assert_eq!((station.hold, station.aspect()), (0, 4));
    assert_eq!(station_after(PLAIN, &reports).aspect(), 4);
}

#[test]
fn a_held_island_hides_no_leaving_warning_island() {
    // Track 0 holds its siding; track 1 has a leaving train and one behind it.
    let held = [(1, 0, 0, 0), (3, 0, 0, 300), (1, 1, 2, 0), (1, 1, 1, 0), (2, 1, 2, 0)];
    let mut station = station_after(PLAIN, &held);
    assert_eq!((station.presence(), station.aspect()), ([true, true, false, false], 4));
    assert_eq!(station.take(report(1, 0, 4, 0)), 0);
    assert_eq!(station.aspect(), 3);
}

#[test]
fn rows_do_not_follow_the_live_station() {
    let mut bytes = [0; 32];
    let mut station = make(PLAIN).1;
    assert_eq!(start(&mut bytes, PLAIN), 0);
    assert_eq!(append(&mut bytes, 0, &mut station, report(7, 0, 0, 0)), 0);
    let first = bytes;
    assert_eq!(append(&mut bytes, 1, &mut station, report(1, 0, 4, 0)), 0);
    assert_eq!(bytes[..24], first[..24]);
    assert_eq!(entry(&bytes, 1), (0, &[7, 0, 0, 0, 0, 0, 0, 0][..]));
}

#[test]
fn conditions_work_the_heads_apart_and_need_no_normalising() {
    let mut station = station_after(PLAIN, &[(1, 0, 3, 0), (6, 1, 0, 8)]);
    assert_eq!(station.heads(), [72, 64]);
    assert_eq!(station.take(report(6, 1, 0, 0)), 0);
    assert_eq!(station.heads(), [72, 72]);
}

#[test]
fn ages_stop_and_faults_latch_only_for_warning_islands() {
    let station = station_after(PLAIN, &[(1, 0, 2, 0), (1, 1, 0, 0), (3, 0, 0, 65535), (3, 0, 0, 65535)]);
    assert_eq!((station.tracks[0][2].age, station.tracks[1][0].age), (65535, 65535));
    assert_eq!((station.fault, station.aspect()), (false, 4));
    let greatest = Settings { t5: 65535, ..PLAIN };
    assert!(!station_after(greatest, &[(1, 0, 1, 0), (3, 0, 0, 65534)]).fault);
    assert!(station_after(greatest, &[(1, 0, 1, 0), (3, 0, 0, 65535)]).fault);
}

#[test]
fn hold_is_set_after_any_accepted_report() {
    let mut station = station_after(Settings { t4: 9, ..PLAIN }, &[(1, 0, 4, 0), (1, 1, 4, 0)]);
    station.hold = 500;
    let mut refused = station;
    assert_eq!((refused.take(report(1, 0, 4, 0)), refused.hold), (6, 500));
    assert_eq!((station.take(report(6, 0, 0, 0)), station.hold), (0, 9));
}

#[test]
fn marks_of_islands_entered_out_of_turn() {
    let leaving = |reports: &[(u8, u8, u8, u16)], place: usize| station_after(PLAIN, reports).tracks[0][place].leaving;
    // The advance island beside it is occupied, but leaving.
    let again = [(1, 0, 2, 0), (1, 0, 1, 0), (1, 0, 0, 0), (2, 0, 1, 0), (1, 0, 1, 0)];
    assert!(leaving(&again, 1));
    // The warning island beside it is occupied, but approaching.
    assert!(!leaving(&[(1, 0, 3, 0), (1, 0, 4, 0)], 4));
    // Side 2 leaves as side 1 does, and the other side's islands are not read.
    assert!(leaving(&[(1, 0, 0, 0), (1, 0, 2, 0), (1, 0, 3, 0)], 3));
    assert!(leaving(&[(1, 0, 2, 0), (1, 0, 3, 0), (1, 0, 4, 0)], 4));
    assert!(!leaving(&[(1, 0, 2, 0), (1, 0, 1, 0), (1, 0, 4, 0)], 4));
    // Another track's crossing is not read; the crossing always approaches.
    assert!(!leaving(&[(1, 1, 2, 0), (1, 0, 1, 0)], 1));
    assert!(!leaving(&[(1, 0, 2, 0), (1, 0, 1, 0), (2, 0, 2, 0), (1, 0, 2, 0)], 2));
}

#[test]
fn a_held_leaving_advance_island_counts_and_a_tick_sets_the_hold() {
    let gone = [(1, 0, 2, 0), (1, 0, 1, 0), (1, 0, 0, 0), (2, 0, 2, 0), (2, 0, 1, 0)];
    let mut station = station_after(Settings { t4: 7, ..PLAIN }, &gone);
    assert_eq!(station.take(report(3, 0, 0, 299)), 0);
    assert_eq!(station.take(report(1, 1, 4, 0)), 0);
    assert_eq!((station.presence(), station.aspect(), station.hold), ([false, true, false, false], 1, 0));
    assert_eq!(station.take(report(3, 0, 0, 1)), 0);
    assert_eq!((station.presence(), station.aspect(), station.hold), ([true, true, false, false], 3, 7));
}

#[test]
fn normalising_ends_the_hold() {
    let both = [(1, 0, 4, 0), (1, 1, 4, 0), (2, 0, 4, 0), (2, 1, 4, 0)];
    let mut station = station_after(Settings { t4: 50, ..PLAIN }, &both);
    assert_eq!((station.hold, station.aspect()), (50, 3));
    assert_eq!(station.take(report(7, 0, 0, 0)), 0);
    assert_eq!((station.hold, station.aspect()), (0, 0));
}

#[test]
fn two_trains_on_one_track_never_count_as_two() {
    assert_eq!(station_after(PLAIN, &[(1, 0, 0, 0), (1, 0, 4, 0)]).aspect(), 1);
}
