//! The inputs of the benches.

use crate::paper;
use degvuurel::{Condition, HeadNumber, IslandNumber, Recorder, Report, Settings, Station, TrackNumber};
use std::fmt;

pub const SETTINGS: Settings = Settings { tracks: 4, t1: 300, t2: 300, t3: 300, t4: 50, t5: 60000 };

/// How much of a station is occupied while the clock goes.
#[derive(Clone, Copy)]
pub enum Busy {
    Nothing,
    One,
    Two,
    All,
}

impl Busy {
    pub const ALL: [Busy; 4] = [Busy::Nothing, Busy::One, Busy::Two, Busy::All];
}

impl fmt::Display for Busy {
    fn fmt(&self, f: &mut fmt::Formatter<'_>) -> fmt::Result {
        f.write_str(match self {
            Busy::Nothing => "nothing occupied",
            Busy::One => "one train",
            Busy::Two => "trains on two tracks",
            Busy::All => "all occupied",
        })
    }
}

/// The station with so much occupied, on both sides.
pub fn both(busy: Busy) -> (Station, paper::Station) {
    let places: Vec<(u8, u8)> = match busy {
        Busy::Nothing => vec![],
        Busy::One => vec![(0, 4)],
        Busy::Two => vec![(0, 4), (0, 3), (1, 0)],
        Busy::All => (0..4).flat_map(|track| (0..5).map(move |island| (track, island))).collect(),
    };
    let mut station = Station::make(SETTINGS).expect("the settings are good");
    let mut plain = paper::make(paper_settings(SETTINGS)).1;
    for report in [Report::normalise()]
        .into_iter()
        .chain(places.into_iter().map(|(track, island)| Report::occupied(TrackNumber(track), IslandNumber(island))))
    {
        station.take(report).expect("the report is taken");
        assert_eq!(plain.take(paper_report(report)), 0);
    }
    (station, plain)
}

pub fn paper_settings(settings: Settings) -> paper::Settings {
    let Settings { tracks, t1, t2, t3, t4, t5 } = settings;
    paper::Settings { tracks, t1, t2, t3, t4, t5 }
}

pub fn paper_report(report: Report) -> paper::Report {
    let Report { kind, a, b, spare, value } = report;
    paper::Report { kind, a, b, spare, value }
}

/// The reports of one train that goes over a track from side 2 to side 1.
fn passing(track: u8) -> [Report; 10] {
    let track = TrackNumber(track);
    let occupied = |island| Report::occupied(track, IslandNumber(island));
    let free = |island| Report::free(track, IslandNumber(island));
    [occupied(4), occupied(3), free(4), occupied(2), free(3), occupied(1), free(2), occupied(0), free(1), free(0)]
}

/// So many reports of trains that pass on the first tracks, each half a passage behind the one before, with a clock report of 1 to
/// `longest` ticks after each, or none.
pub fn trains(tracks: u8, longest: u16, count: usize) -> Vec<Report> {
    let mut reports = vec![Report::normalise()];
    let mut moment = 0;
    while reports.len() < count {
        for track in 0..tracks {
            // A track's first train starts half a passage after that of the track before.
            let behind = 5 * usize::from(track);
            if moment >= behind {
                reports.push(passing(track)[(moment - behind) % 10]);
            }
        }
        if longest > 0 {
            reports.push(Report::clock(1 + (moment as u16).wrapping_mul(7) % longest));
        }
        moment += 1;
    }
    reports.truncate(count);
    reports
}

/// Trains, with a head's condition, a detector that fails and is restored, and a normalise that is refused, among them.
pub fn everything(count: usize) -> Vec<Report> {
    let others = [
        Report::head(HeadNumber(1), Condition::BOARD_FAILED),
        Report::failed(TrackNumber(3), IslandNumber(1)),
        Report::head(HeadNumber(1), Condition::NONE),
        Report::restored(TrackNumber(3), IslandNumber(1)),
        Report::normalise(),
    ];
    let mut reports = vec![];
    for (place, report) in trains(2, 0, count).into_iter().enumerate() {
        reports.push(report);
        reports.push(others[place % others.len()]);
    }
    reports.truncate(count);
    reports
}

/// A register of these reports.
pub fn register(settings: Settings, reports: &[Report]) -> Vec<u8> {
    let mut recorder = Recorder::start(settings).expect("the settings are good");
    for report in reports {
        assert!(recorder.append(*report).is_entered(), "there is room");
    }
    recorder.into_bytes()
}

/// The planner's text of these reports.
pub fn text(settings: Settings, reports: &[Report]) -> String {
    let mut text = format!("{settings}\n");
    for report in reports {
        text += &format!("{report}\n");
    }
    text
}
