//! Reports of trains, by their kinds.

use crate::declared;
use crate::numbers::{HeadNumber, IslandNumber, TrackNumber};
use crate::structs::{Condition, Report};
use std::error::Error;
use std::fmt;

// The kinds.
const OCCUPIED: u8 = 1;
const FREE: u8 = 2;
const CLOCK: u8 = 3;
const FAILED: u8 = 4;
const RESTORED: u8 = 5;
const HEAD: u8 = 6;
const NORMALISE: u8 = 7;

/// What a report says, by its kind: document 01, "Reports".
///
/// ```
/// use degvuurel::{IslandNumber, Kind, Report, TrackNumber};
///
/// let report = Report::occupied(TrackNumber(0), IslandNumber::ADVANCE_2);
/// assert_eq!(Kind::try_from(report), Ok(Kind::Occupied { track: TrackNumber(0), island: IslandNumber(4) }));
/// assert_eq!(Report::from(Kind::Clock { ticks: 50 }), Report::clock(50));
/// assert!(Kind::try_from(Report { kind: 9, a: 0, b: 0, spare: 0, value: 0 }).is_err());
/// ```
#[derive(Clone, Copy, Debug, PartialEq, Eq, Hash)]
pub enum Kind {
    /// 1: an island of a track is occupied.
    Occupied {
        /// Which track.
        track: TrackNumber,
        /// Which of its islands.
        island: IslandNumber,
    },
    /// 2: an island of a track is free.
    Free {
        /// Which track.
        track: TrackNumber,
        /// Which of its islands.
        island: IslandNumber,
    },
    /// 3: the clock has gone on.
    Clock {
        /// How far, in ticks, each a tenth of a second.
        ticks: u16,
    },
    /// 4: the detector of an island has failed.
    Failed {
        /// Which track.
        track: TrackNumber,
        /// Which of its islands.
        island: IslandNumber,
    },
    /// 5: the detector of an island is restored.
    Restored {
        /// Which track.
        track: TrackNumber,
        /// Which of its islands.
        island: IslandNumber,
    },
    /// 6: a head is in a condition.
    Head {
        /// Which head.
        head: HeadNumber,
        /// What has failed of it.
        condition: Condition,
    },
    /// 7: the station is normalised.
    Normalise,
}

impl From<Kind> for Report {
    fn from(kind: Kind) -> Report {
        let (kind, a, b, value) = match kind {
            Kind::Occupied { track, island } => (OCCUPIED, track.0, island.0, 0),
            Kind::Free { track, island } => (FREE, track.0, island.0, 0),
            Kind::Clock { ticks } => (CLOCK, 0, 0, ticks),
            Kind::Failed { track, island } => (FAILED, track.0, island.0, 0),
            Kind::Restored { track, island } => (RESTORED, track.0, island.0, 0),
            Kind::Head { head, condition } => (HEAD, head.0, 0, condition.0),
            Kind::Normalise => (NORMALISE, 0, 0, 0),
        };
        Report { kind, a, b, spare: 0, value }
    }
}

/// A report that is of no kind, or has a field that its kind has not. A station refuses it by 1 or 2.
#[derive(Clone, Copy, Debug, PartialEq, Eq, Hash)]
pub struct NoKind(pub Report);

impl fmt::Display for NoKind {
    fn fmt(&self, f: &mut fmt::Formatter<'_>) -> fmt::Result {
        f.pad(&format!("{} is of no kind, or has a field that its kind has not", self.0))
    }
}

impl Error for NoKind {}

impl TryFrom<Report> for Kind {
    type Error = NoKind;

    fn try_from(report: Report) -> Result<Kind, NoKind> {
        let Report { kind, a, b, spare, value } = report;
        let (track, island) = (TrackNumber(a), IslandNumber(b));
        Ok(match (kind, a, b, spare, value) {
            (OCCUPIED, _, _, 0, 0) => Kind::Occupied { track, island },
            (FREE, _, _, 0, 0) => Kind::Free { track, island },
            (CLOCK, 0, 0, 0, ticks) => Kind::Clock { ticks },
            (FAILED, _, _, 0, 0) => Kind::Failed { track, island },
            (RESTORED, _, _, 0, 0) => Kind::Restored { track, island },
            (HEAD, head, 0, 0, condition) => Kind::Head { head: HeadNumber(head), condition: Condition(condition) },
            (NORMALISE, 0, 0, 0, 0) => Kind::Normalise,
            _ => return Err(NoKind(report)),
        })
    }
}

impl Report {
    /// An island of a track is occupied.
    #[must_use]
    pub fn occupied(track: TrackNumber, island: IslandNumber) -> Report {
        Kind::Occupied { track, island }.into()
    }

    /// An island of a track is free.
    #[must_use]
    pub fn free(track: TrackNumber, island: IslandNumber) -> Report {
        Kind::Free { track, island }.into()
    }

    /// The clock has gone so many ticks, each a tenth of a second.
    #[must_use]
    pub fn clock(ticks: u16) -> Report {
        Kind::Clock { ticks }.into()
    }

    /// The detector of an island has failed.
    #[must_use]
    pub fn failed(track: TrackNumber, island: IslandNumber) -> Report {
        Kind::Failed { track, island }.into()
    }

    /// The detector of an island is restored.
    #[must_use]
    pub fn restored(track: TrackNumber, island: IslandNumber) -> Report {
        Kind::Restored { track, island }.into()
    }

    /// A head is in this condition.
    #[must_use]
    pub fn head(head: HeadNumber, condition: Condition) -> Report {
        Kind::Head { head, condition }.into()
    }

    /// The station is normalised.
    #[must_use]
    pub fn normalise() -> Report {
        Kind::Normalise.into()
    }
}

/// As a planner would type it: `occupied 0 4`.
impl fmt::Display for Kind {
    fn fmt(&self, f: &mut fmt::Formatter<'_>) -> fmt::Result {
        f.pad(&match self {
            Kind::Occupied { track, island } => format!("occupied {track} {island}"),
            Kind::Free { track, island } => format!("free {track} {island}"),
            Kind::Clock { ticks } => format!("clock {ticks}"),
            Kind::Failed { track, island } => format!("failed {track} {island}"),
            Kind::Restored { track, island } => format!("restored {track} {island}"),
            Kind::Head { head, condition } => format!("head {head} {condition}"),
            Kind::Normalise => "normalise".to_owned(),
        })
    }
}

/// A report as a planner would type it; one of no kind, or with a field that its kind does not have, as its numbers. Read back, by
/// `parse`, it is the same report.
///
/// ```
/// use degvuurel::{IslandNumber, Report, TrackNumber};
///
/// assert_eq!(Report::occupied(TrackNumber(0), IslandNumber(4)).to_string(), "occupied 0 4");
/// assert_eq!(Report { kind: 9, a: 0, b: 0, spare: 0, value: 0 }.to_string(), "report 9 0 0 0 0");
/// ```
impl fmt::Display for Report {
    fn fmt(&self, f: &mut fmt::Formatter<'_>) -> fmt::Result {
        match Kind::try_from(*self) {
            Ok(kind) => kind.fmt(f),
            Err(_) => {
                let Report { kind, a, b, spare, value } = self;
                f.pad(&format!("report {kind} {a} {b} {spare} {value}"))
            }
        }
    }
}

/// The report of an entry's bytes, whatever they are. Bytes that are missing count as 0, which is no kind of report.
///
/// ```
/// assert_eq!(degvuurel::report_in(&[3, 0, 0, 0, 44, 1, 0, 5]), degvuurel::Report::clock(300));
/// ```
#[must_use]
pub fn report_in(entry: &[u8]) -> Report {
    // SAFETY: the pointer and the length are one slice.
    unsafe { declared::degvuurel_report_in(entry.as_ptr(), entry.len()) }
}
