//! What goes through the archive's door by value, field by field as in the Rattle source, and the sizes of what is lent. What can
//! be done with each stands in a file of its own.

/// The bytes of the header.
pub const HEADER: usize = 16;

/// The bytes of an entry.
pub const ENTRY: usize = 8;

/// The most entries that a register has.
pub const MOST: usize = 8190;

/// The bytes of a register of [`MOST`] entries.
pub const MOST_BYTES: usize = HEADER + ENTRY * MOST;

/// The bytes of the longest sheet.
pub const SHEET: usize = 188_397;

/// Room for any sheet.
pub type SheetText = [u8; SHEET];

/// The bytes of the longest message that is written.
pub const MESSAGE: usize = 87;

/// The bytes of the longest text that is read.
pub const MESSAGE_READ: usize = 4096;

/// The number of tracks, 1 to 4, and the timers in ticks. T4 may be 0, the others not, and T5 is greater than T2.
#[derive(Clone, Copy, Debug, PartialEq, Eq, Hash)]
#[repr(C)]
pub struct Settings {
    /// The number of tracks.
    pub tracks: u8,
    /// Of the advance islands.
    pub t1: u16,
    /// Of the warning islands.
    pub t2: u16,
    /// Of the crossing.
    pub t3: u16,
    /// The hold after the greatest risk.
    pub t4: u16,
    /// From which age on an occupied warning island latches the fault.
    pub t5: u16,
}

/// An island is free, or occupied with a mark and an age in ticks. Its detector may have failed.
#[derive(Clone, Copy, Debug, PartialEq, Eq, Hash, Default)]
#[repr(C)]
pub struct Island {
    /// Whether it is occupied.
    pub occupied: bool,
    /// The mark: leaving, or else approaching.
    pub leaving: bool,
    /// Whether its detector has failed.
    pub failed: bool,
    /// Ticks since it became occupied.
    pub age: u16,
}

/// Advance side 1, warning side 1, crossing, warning side 2, advance side 2.
#[derive(Clone, Copy, Debug, PartialEq, Eq, Hash, Default)]
#[repr(C)]
pub struct Track {
    /// The five islands.
    pub islands: [Island; 5],
}

/// A station: a plain value, any of which can be handed to any function. One whose settings are outside their limits refuses every
/// report by 8, and shows what is safe: out of service, both heads dark, every zone occupied and every track present.
///
/// ```
/// use degvuurel::{Answer, Aspect, IslandNumber, Report, Settings, Station, TrackNumber};
///
/// # fn main() -> Result<(), degvuurel::Refusal> {
/// let mut station = Station::make(Settings { tracks: 1, t1: 300, t2: 300, t3: 300, t4: 50, t5: 600 })?;
/// assert_eq!(station.aspect(), Aspect::OutOfService); // a fresh station's fault is latched
/// station.take(Report::normalise())?;
/// station.take(Report::occupied(TrackNumber(0), IslandNumber::CROSSING))?;
/// assert_eq!(station.aspect(), Aspect::Forbidden);
/// assert_eq!(station.take(Report::normalise()).unwrap_err().answer(), Answer::NotClear);
/// assert_eq!(station.zones(), [1, 1, 0, 1, 1]);
/// # Ok(())
/// # }
/// ```
#[derive(Clone, Copy, Debug, PartialEq, Eq, Hash)]
#[repr(C)]
pub struct Station {
    /// The settings that it was made of.
    pub settings: Settings,
    /// Tracks beyond the settings' number are neither read nor changed.
    pub tracks: [Track; 4],
    /// What is left of T4, in ticks.
    pub hold: u16,
    /// Whether the fault is latched.
    pub fault: bool,
    /// What has failed of each head.
    pub conditions: [Condition; 2],
}

/// Which parts of a head have failed, a bit each: document 01, "The heads". The parts have names, which are joined by `|`.
///
/// ```
/// use degvuurel::{Aspect, Condition, HeadNumber, Outputs, Report};
///
/// // Where the board has failed the lamps go out and the sounder is kept; where a sounder has failed, that one is silent.
/// let shown = Aspect::GreatestRisk.outputs();
/// assert_eq!(shown.through(Condition::BOARD_FAILED), Outputs::S3);
/// assert_eq!(shown.through(Condition::S3_FAILED), Outputs::RF | Outputs::R_PLUS);
/// assert_eq!(shown.through(Condition::BOARD_FAILED | Condition::POWER_FAILED), Outputs::NONE);
///
/// // In a planner's text it is one number.
/// let report = Report::head(HeadNumber(0), Condition::BOARD_FAILED | Condition::S1_FAILED);
/// assert_eq!(report.to_string(), "head 0 24");
/// ```
///
/// In a pattern `|` is Rust's "or", and would match either part alone: compare by `==`, or match a constant that is made by
/// [`with`](Condition::with).
#[derive(Clone, Copy, PartialEq, Eq, Hash, Default)]
#[repr(transparent)]
pub struct Condition(pub(crate) u16);

/// Nine output bits, five lamps and four sounders, bit 0 first: VF, VI, NI, RF, R+, S1, S2, S3, S4. They have names, which are
/// joined by `|`. Shown as nine digits, VF first.
///
/// ```
/// use degvuurel::{Aspect, Outputs};
///
/// let shown = Aspect::GreatestRisk.outputs();
/// assert_eq!(shown, Outputs::RF | Outputs::R_PLUS | Outputs::S3);
/// assert!(shown.contains(Outputs::RF) && !shown.contains(Outputs::S2));
/// assert_eq!(shown.names().collect::<Vec<_>>(), ["RF", "R+", "S3"]);
/// assert_eq!(shown.to_string(), "000110010");
/// ```
///
/// In a pattern `|` is Rust's "or", and would match either output alone: compare by `==`, or match a constant that is made by
/// [`with`](Outputs::with):
///
/// ```
/// # use degvuurel::{Aspect, Outputs};
/// const FORBIDDEN: Outputs = Outputs::RF.with(Outputs::S2);
/// assert!(matches!(Aspect::Forbidden.outputs(), FORBIDDEN));
/// ```
#[derive(Clone, Copy, PartialEq, Eq, Hash, Default)]
#[repr(transparent)]
pub struct Outputs(pub(crate) u16);

/// A report, six bytes of the register: document 01, "Reports". The functions make each kind; any other fields are answered by a
/// number when the report is taken.
#[derive(Clone, Copy, Debug, PartialEq, Eq, Hash)]
#[repr(C)]
pub struct Report {
    /// 1 to 7.
    pub kind: u8,
    /// The track, or the head.
    pub a: u8,
    /// The island.
    pub b: u8,
    /// 0.
    pub spare: u8,
    /// Ticks, or a head's condition.
    pub value: u16,
}

/// A time. No distance is ever taken for one.
#[derive(Clone, Copy, Debug, PartialEq, Eq, Hash, PartialOrd, Ord)]
#[repr(C)]
pub struct Seconds(pub u16);

/// A distance, which is shown in metres. It has no field to read, so that a program written for metres does not compile:
///
/// ```compile_fail,E0616
/// let metres = degvuurel::warning(126, 1).unwrap().0;
/// ```
#[derive(Clone, Copy, Debug, PartialEq, Eq, Hash, PartialOrd, Ord)]
#[repr(C)]
pub struct Decimetres(pub(crate) u32);

/// What a row of a sheet shows.
#[derive(Clone, Copy, Debug, PartialEq, Eq, Hash)]
#[repr(C)]
pub struct RowFields {
    /// The entry's number, from 1.
    pub entry: u64,
    /// The zone digits in island order.
    pub zones: [u8; 5],
    /// The nine outputs.
    pub outputs: Outputs,
    /// The answer.
    pub answer: u8,
}

/// What the information desk is told of a station: one JSON object with the members `station`, `aspect` and `tracks`.
///
/// ```
/// use degvuurel::{Aspect, IslandNumber, Message, Report, Settings, Station, TrackNumber};
///
/// # fn main() -> Result<(), degvuurel::Refusal> {
/// let mut station = Station::make(Settings { tracks: 2, t1: 300, t2: 300, t3: 300, t4: 0, t5: 600 })?;
/// station.take(Report::normalise())?;
/// station.take(Report::occupied(TrackNumber(0), IslandNumber::WARNING_2))?;
/// let message = Message::of(7, &station);
/// assert_eq!(message.text()?, r#"{"station":7,"aspect":2,"tracks":[[1,1,1,0,1],[1,1,1,1,1]]}"#);
///
/// // The desk adds members and blanks of its own.
/// let sent_back = br#" { "text": "Stand clear", "station": 7, "aspect": 2, "tracks": [[1,1,1,0,1], [1,1,1,1,1]] } "#;
/// let read = Message::read(sent_back)?;
/// assert_eq!(read, message);
/// assert_eq!(read.aspect(), Some(Aspect::Forbidden));
///
/// assert_eq!(Message::read(b"[]").unwrap_err().number(), 16);
/// assert_eq!(Message::read(b"[").unwrap_err().number(), 15);
/// # Ok(())
/// # }
/// ```
#[derive(Clone, Copy, Debug, PartialEq, Eq, Hash)]
#[repr(C)]
pub struct Message {
    /// The station's number.
    pub station: u16,
    /// The aspect's number, 0 to 5.
    pub aspect: u8,
    /// The number of tracks, 1 to 4.
    pub tracks: u8,
    /// Five digits for each track, in island order: 0 occupied, 1 free. Those of tracks that are not there are 0.
    pub digits: [u8; 20],
}
