//! Reports and settings in the planner's words, read by the proved library. What [`Display`](std::fmt::Display) writes of any
//! report, and of settings within their limits, is read here as the same.

use crate::declared;
use crate::plan::{record, Fault, Misread};
use crate::structs::{Report, Settings};
use std::error::Error;
use std::fmt;
use std::str::FromStr;

/// The first and the last of the words that are kinds of report; before them stand the settings.
const FIRST_KIND: u8 = 6;
const LAST_KIND: u8 = 13;

/// No word at all: a blank line, or a comment. A word that is none of these is a fault.
const NO_WORD: u8 = 15;

/// Why a line is no report.
#[derive(Clone, Copy, Debug, PartialEq, Eq, Hash)]
pub enum NotAReport {
    /// It is not understood.
    Misread(Fault),
    /// It is a setting.
    Setting,
    /// It has no words, or only a comment.
    Nothing,
    /// It is more than one line.
    Lines,
}

impl fmt::Display for NotAReport {
    fn fmt(&self, f: &mut fmt::Formatter<'_>) -> fmt::Result {
        match self {
            NotAReport::Misread(fault) => fault.fmt(f),
            NotAReport::Setting => f.pad("a setting, and no report"),
            NotAReport::Nothing => f.pad("no report"),
            NotAReport::Lines => f.pad("more than one line"),
        }
    }
}

impl Error for NotAReport {}

/// A line of a planner's text, with or without its line feed, that is a report. A byte order mark is for the start of a text, and
/// is not taken here.
///
/// ```
/// use degvuurel::{Fault, IslandNumber, NotAReport, Report, TrackNumber};
///
/// assert_eq!("occupied 0 4  # a train comes".parse(), Ok(Report::occupied(TrackNumber(0), IslandNumber(4))));
/// assert_eq!("occupied 0".parse::<Report>(), Err(NotAReport::Misread(Fault::NumberMissing)));
/// assert_eq!("t1 300".parse::<Report>(), Err(NotAReport::Setting));
/// ```
impl FromStr for Report {
    type Err = NotAReport;

    fn from_str(line: &str) -> Result<Report, NotAReport> {
        let line = line.strip_suffix('\n').unwrap_or(line);
        if line.contains('\n') {
            return Err(NotAReport::Lines);
        }
        // SAFETY: the pointer and the length are one slice.
        let said = unsafe { declared::degvuurel_line_in(line.as_ptr(), line.len()) };
        match (Fault::given(said.fault), said.name) {
            (Some(fault), _) => Err(NotAReport::Misread(fault)),
            (None, FIRST_KIND..=LAST_KIND) => Ok(said.numbers),
            (None, NO_WORD) => Err(NotAReport::Nothing),
            (None, _) => Err(NotAReport::Setting),
        }
    }
}

impl TryFrom<&str> for Report {
    type Error = NotAReport;

    fn try_from(line: &str) -> Result<Report, NotAReport> {
        line.parse()
    }
}

/// Why a text is no settings.
#[derive(Clone, Copy, Debug, PartialEq, Eq, Hash)]
pub enum NotSettings {
    /// It is not understood, or they are outside their limits.
    Misread(Misread),
    /// All of it is understood, and reports follow, the first of them on this line.
    Report(usize),
}

impl fmt::Display for NotSettings {
    fn fmt(&self, f: &mut fmt::Formatter<'_>) -> fmt::Result {
        match self {
            NotSettings::Misread(misread) => misread.fmt(f),
            NotSettings::Report(line) => f.pad(&format!("line {line}: a report, and no setting")),
        }
    }
}

impl Error for NotSettings {}

/// As a planner would type them, a line each, the last without its line feed.
///
/// ```
/// use degvuurel::Settings;
///
/// let settings = Settings { tracks: 2, t1: 300, t2: 300, t3: 300, t4: 0, t5: 600 };
/// assert_eq!(settings.to_string(), "tracks 2\nt1 300\nt2 300\nt3 300\nt4 0\nt5 600");
/// assert_eq!(settings.to_string().parse(), Ok(settings));
/// ```
impl fmt::Display for Settings {
    fn fmt(&self, f: &mut fmt::Formatter<'_>) -> fmt::Result {
        let Settings { tracks, t1, t2, t3, t4, t5 } = self;
        f.pad(&format!("tracks {tracks}\nt1 {t1}\nt2 {t2}\nt3 {t3}\nt4 {t4}\nt5 {t5}"))
    }
}

/// The settings of a planner's text that has no reports: six lines, in any order, with comments and blank lines as one likes.
impl FromStr for Settings {
    type Err = NotSettings;

    fn from_str(text: &str) -> Result<Settings, NotSettings> {
        let plan = record(text.as_bytes()).map_err(NotSettings::Misread)?;
        match plan.line_of(1) {
            Some(line) => Err(NotSettings::Report(line)),
            None => Ok(plan.register().settings()),
        }
    }
}

impl TryFrom<&str> for Settings {
    type Error = NotSettings;

    fn try_from(text: &str) -> Result<Settings, NotSettings> {
        text.parse()
    }
}
