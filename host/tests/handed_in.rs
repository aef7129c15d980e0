//! Stations that no report leads to, handed in: settings outside their limits, and every field in use. And siting at its limits.
//! The numbers are typed from document 01.

include!("archive/declared.rs");

use degvuurel::{
    Aspect, Condition, HeadNumber, Island, IslandNumber, Message, Outputs, Report, Seconds, Settings, Station, Track, TrackNumber,
};

const WORKED: Settings = Settings { tracks: 2, t1: 300, t2: 300, t3: 300, t4: 0, t5: 600 };

const OUTSIDE: [Settings; 9] = [
    Settings { tracks: 0, ..WORKED },
    Settings { tracks: 5, ..WORKED },
    Settings { tracks: 255, ..WORKED },
    Settings { t1: 0, ..WORKED },
    Settings { t2: 0, ..WORKED },
    Settings { t3: 0, ..WORKED },
    Settings { t5: 0, ..WORKED },
    Settings { t5: 300, ..WORKED },
    Settings { t5: 299, ..WORKED },
];

const NO_KIND: Report = Report { kind: 8, a: 0, b: 0, spare: 1, value: 0 };

/// A condition's bits from 10 up.
const NOT_READ: Condition = Condition::of(0xFC00);

/// A report of each kind, with nothing wrong in it.
fn well_formed() -> [Report; 7] {
    [
        Report::occupied(TrackNumber(0), IslandNumber(3)),
        Report::free(TrackNumber(0), IslandNumber(3)),
        Report::clock(1),
        Report::failed(TrackNumber(0), IslandNumber(3)),
        Report::restored(TrackNumber(0), IslandNumber(3)),
        Report::head(HeadNumber(0), Condition::BOARD_FAILED),
        Report::normalise(),
    ]
}

/// A station where much stands, on the tracks beyond its number too, and no two fields are alike: whatever a refusal would clear,
/// copy or overwrite shows.
fn busy(settings: Settings) -> Station {
    let island = |number: u16| Island {
        occupied: number.is_multiple_of(2),
        leaving: number.is_multiple_of(3),
        failed: number.is_multiple_of(5),
        age: 1000 + number,
    };
    let track = |track: u16| Track { islands: [0, 1, 2, 3, 4].map(|place| island(5 * track + place)) };
    let conditions = [NOT_READ | Condition::BOARD_FAILED, Condition::S3_FAILED];
    Station { settings, tracks: [0, 1, 2, 3].map(track), hold: 77, fault: false, conditions }
}

/// The answer to a report that is refused, which is also what asking beforehand says; the station stays.
fn refused(station: &Station, report: Report) -> u8 {
    let mut after = *station;
    let answer = after.take(report).map_or_else(|refusal| refusal.number(), |()| 0);
    assert_eq!((after, station.answer(report).number()), (*station, answer), "{report}");
    answer
}

/// "Also of a station handed in": 8 before any other number, aspect 5, and the heads show 0.
#[test]
fn settings_outside_their_limits() {
    for settings in OUTSIDE {
        let station = busy(settings);
        for report in well_formed().into_iter().chain([NO_KIND]) {
            assert_eq!(refused(&station, report), 8, "{settings:?}, {report}");
        }
        assert_eq!((station.aspect().number(), station.heads()), (5, [Outputs::NONE; 2]), "{settings:?}");
        // What cannot be trusted counts as taken.
        assert_eq!((station.zones(), station.presence()), ([0; 5], [true; 4]), "{settings:?}");
        let told = Message { station: 9, aspect: 5, tracks: 4, digits: [0; 20] };
        assert_eq!(Message::of(9, &station), told, "{settings:?}");
    }
}

/// A report refused by each of 1 to 7 changes nothing of a busy station.
#[test]
fn refused_reports_of_a_busy_station() {
    let station = busy(WORKED);
    let reports = [
        (NO_KIND, 1),
        (Report::clock(0), 2),
        (Report { spare: 1, ..Report::occupied(TrackNumber(9), IslandNumber(9)) }, 2),
        (Report::head(HeadNumber(0), Condition::of(1024)), 2),
        (Report::occupied(TrackNumber(2), IslandNumber(9)), 3),
        (Report::restored(TrackNumber(255), IslandNumber(0)), 3),
        (Report::occupied(TrackNumber(1), IslandNumber(5)), 4),
        (Report::head(HeadNumber(2), Condition::NONE), 5),
        (Report::occupied(TrackNumber(0), IslandNumber(0)), 6),
        (Report::free(TrackNumber(0), IslandNumber(1)), 6),
        (Report::failed(TrackNumber(1), IslandNumber(0)), 6),
        (Report::restored(TrackNumber(0), IslandNumber(1)), 6),
        (Report::normalise(), 7),
    ];
    for (report, answer) in reports {
        assert_eq!(refused(&station, report), answer, "{report}");
    }
}

/// Tracks beyond the station's number are neither read nor changed, and a condition's bits from 10 up are not read.
#[test]
fn what_is_not_read() {
    let one = Settings { tracks: 1, ..WORKED };
    let mut station = busy(one);
    station.tracks[0] = Track::default();
    station.hold = 0;
    assert_eq!((station.aspect().number(), station.zones(), station.presence()), (0, [1; 5], [false; 4]));
    let old = station;
    for report in [Report::clock(1000), Report::normalise(), Report::occupied(TrackNumber(0), IslandNumber(4)), Report::clock(1)] {
        station.take(report).expect("nothing is wrong with it");
        assert_eq!(station.tracks[1..], old.tracks[1..], "{report}");
    }
    // Of head 0 the board has failed, and it shows the sounder alone; of head 1 only S3 has, which this aspect does not sound.
    assert_eq!(station.aspect(), Aspect::Clearing);
    assert_eq!(station.heads(), [Outputs::S1, Outputs::VI | Outputs::S1]);
}

/// Ages stop at 65535, also where they are handed in there, and a hold above T4 falls by one a tick.
#[test]
fn the_greatest_ages_and_holds() {
    let mut station = Station { conditions: [Condition::NONE; 2], ..busy(Settings { t4: 5, ..WORKED }) };
    station.tracks = [Track::default(); 4];
    station.tracks[0].islands[2] = Island { occupied: true, leaving: false, failed: false, age: 65534 };
    station.hold = 65535;
    station.take(Report::clock(3)).expect("a clock is taken");
    assert_eq!((station.tracks[0].islands[2].age, station.hold, station.aspect().number()), (65535, 65532, 3));
}

/// Refused siting returns distance 0, which the wrapper does not hand on.
#[test]
fn siting_at_its_limits() {
    let advances = [(1, 0, 0, 84), (350, 60, 0, 87_500), (0, 6, 8, 0), (351, 6, 8, 0), (155, 61, 8, 0)];
    for (speed, message, answer, decimetres) in advances {
        // SAFETY: any numbers are taken.
        let sited = unsafe { declared::degvuurel_advance(speed, Seconds(message)) };
        assert_eq!((sited.answer, sited.distance.number()), (answer, decimetres), "{speed} km/h, {message} s");
    }
    let warnings = [(1, 1, 0, 20), (350, 4, 0, 27_223), (0, 2, 8, 0), (351, 2, 8, 0), (155, 0, 8, 0), (155, 5, 8, 0)];
    for (speed, tracks, answer, decimetres) in warnings {
        // SAFETY: any numbers are taken.
        let sited = unsafe { declared::degvuurel_warning(speed, tracks) };
        assert_eq!((sited.answer, sited.distance.number()), (answer, decimetres), "{speed} km/h, {tracks} tracks");
    }
}
