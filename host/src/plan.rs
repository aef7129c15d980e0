//! A planner's text: settings and reports in words, a line each.

use crate::answer::{Answer, NoSuchNumber};
use crate::declared::{self, RegisterBytes, RowLines};
use crate::entry::Entry;
use crate::register::Register;
use crate::structs::{ENTRY, HEADER, MOST, MOST_BYTES};
use std::error::Error;
use std::fmt;

/// What is wrong with a planner's text, in words: with one of its lines, or when it ends.
///
/// ```
/// use degvuurel::Fault;
///
/// assert_eq!(Fault::WordTooMany.number(), 3);
/// assert_eq!(Fault::try_from(3), Ok(Fault::WordTooMany));
/// assert_eq!(Fault::WordTooMany.to_string(), "a word too many");
/// ```
#[derive(Clone, Copy, Debug, PartialEq, Eq, Hash)]
#[repr(u8)]
pub enum Fault {
    /// 1: the first word of a line is not a setting, and not a kind of report.
    NotAName = 1,
    /// 2: a number is missing.
    NumberMissing = 2,
    /// 3: a word too many.
    WordTooMany = 3,
    /// 4: not a number from 0 to 255.
    NotAByte = 4,
    /// 5: not a number from 0 to 65535.
    NotSixteenBits = 5,
    /// 6: a setting after the first report.
    LateSetting = 6,
    /// 7: a setting that was given already.
    SetAlready = 7,
    /// 8: a report before all six settings.
    SettingsMissing = 8,
    /// 9: a setting with which all six are given, and are outside their limits.
    SettingsOutside = 9,
    /// 10: a report too many: a register has at most [`MOST`].
    TooManyReports = 10,
    /// 11: the text ends before all six settings.
    TextEnds = 11,
}

impl Fault {
    /// Every fault, in the order of its number.
    pub const ALL: [Fault; 11] = [
        Fault::NotAName,
        Fault::NumberMissing,
        Fault::WordTooMany,
        Fault::NotAByte,
        Fault::NotSixteenBits,
        Fault::LateSetting,
        Fault::SetAlready,
        Fault::SettingsMissing,
        Fault::SettingsOutside,
        Fault::TooManyReports,
        Fault::TextEnds,
    ];

    /// The fault with this number, if there is one: 0 is none.
    #[must_use]
    pub fn of(number: u8) -> Option<Fault> {
        Fault::ALL.get(usize::from(number).checked_sub(1)?).copied()
    }

    /// Its number, 1 to 11.
    #[must_use]
    pub fn number(self) -> u8 {
        self as u8
    }

    /// The fault that the library found, or none where it is 0. It is proved to find none above 11.
    pub(crate) fn given(number: u8) -> Option<Fault> {
        (number != 0).then(|| Fault::of(number).expect("the library finds the faults 1 to 11"))
    }
}

impl TryFrom<u8> for Fault {
    type Error = NoSuchNumber;

    fn try_from(number: u8) -> Result<Fault, NoSuchNumber> {
        Fault::of(number).ok_or(NoSuchNumber(number))
    }
}

impl From<Fault> for u8 {
    fn from(fault: Fault) -> u8 {
        fault.number()
    }
}

impl fmt::Display for Fault {
    fn fmt(&self, f: &mut fmt::Formatter<'_>) -> fmt::Result {
        f.pad(match self {
            Fault::NotAName => "not a setting, and not a kind of report",
            Fault::NumberMissing => "a number is missing",
            Fault::WordTooMany => "a word too many",
            Fault::NotAByte => "not a number from 0 to 255",
            Fault::NotSixteenBits => "not a number from 0 to 65535",
            Fault::LateSetting => "a setting after the first report",
            Fault::SetAlready => "set already",
            Fault::SettingsMissing => "a report before all six settings (tracks, t1, t2, t3, t4, t5)",
            Fault::SettingsOutside => "with this the settings are outside their limits",
            Fault::TooManyReports => "more than 8190 reports",
            Fault::TextEnds => "the text ends before all six settings (tracks, t1, t2, t3, t4, t5)",
        })
    }
}

impl Error for Fault {}

/// A text that is not recorded: its first fault, and the line, counted from 1. What is missing at the end has none.
#[derive(Clone, Copy, Debug, PartialEq, Eq, Hash)]
pub struct Misread {
    /// What is wrong.
    pub fault: Fault,
    /// On which line.
    pub line: Option<usize>,
}

/// `line 8: not a setting, and not a kind of report`
impl fmt::Display for Misread {
    fn fmt(&self, f: &mut fmt::Formatter<'_>) -> fmt::Result {
        match self.line {
            Some(line) => f.pad(&format!("line {line}: {}", self.fault)),
            None => self.fault.fmt(f),
        }
    }
}

impl Error for Misread {}

/// A planner's text as it was recorded: its register, and the line that each row comes from.
#[derive(Clone, Debug, PartialEq, Eq)]
pub struct Plan {
    bytes: Vec<u8>,
    lines: Vec<usize>,
}

impl Plan {
    /// The register that the text means, of exactly the filled bytes.
    #[must_use]
    pub fn register(&self) -> Register<'_> {
        Register::new(&self.bytes)
    }

    /// The line of a row's report, counted from 1 as rows are. Row 0 has none, nor has a row above the count.
    #[must_use]
    pub fn line_of(&self, row: usize) -> Option<usize> {
        self.lines.get(row.checked_sub(1)?).copied()
    }

    /// The number of rows.
    #[must_use]
    pub fn count(&self) -> usize {
        self.lines.len()
    }

    /// Every row's entry, row 1 first. Nothing is replayed: what is recorded reads back.
    #[must_use]
    pub fn entries(&self) -> impl DoubleEndedIterator<Item = Entry> + ExactSizeIterator + '_ {
        Entry::all(&self.bytes)
    }

    /// The reports that are refused, and entered all the same: the row, its line and its entry.
    pub fn refused(&self) -> impl Iterator<Item = (usize, usize, Entry)> + '_ {
        let rows = (1..).zip(&self.lines).zip(self.entries());
        rows.map(|((row, &line), entry)| (row, line, entry)).filter(|(_, _, entry)| entry.answer != Answer::Done)
    }

    /// The register's bytes, to keep or to go on with.
    #[must_use]
    pub fn into_bytes(self) -> Vec<u8> {
        self.bytes
    }
}

/// Records a planner's text. A report that is refused by 1 to 7 is entered all the same: [`Plan::refused`] tells them.
///
/// ```
/// use degvuurel::{record, Fault};
///
/// let text = b"tracks 2\nt1 300\nt2 300\nt3 300\nt4 0\nt5 600\n\nnormalise\noccupied 0 4  # a train comes\n";
/// let plan = record(text).expect("nothing is wrong with it");
/// assert_eq!(plan.register().sheet().unwrap(), "entry zones outputs answer\n1 11111 100000000 0\n2 11110 010001000 0\n");
/// assert_eq!(plan.line_of(2), Some(9));
/// assert_eq!(plan.refused().count(), 0);
///
/// let misread = record(b"tracks 2\nt1 300\nt2 300\nt3 300\nt4 0\nt5 600\n\nocupied 0 4\n").unwrap_err();
/// assert_eq!((misread.fault, misread.line), (Fault::NotAName, Some(8)));
/// assert_eq!(misread.to_string(), "line 8: not a setting, and not a kind of report");
/// ```
///
/// # Errors
///
/// The first fault of a text in which there is one. Then nothing is recorded.
pub fn record(text: &[u8]) -> Result<Plan, Misread> {
    let (mut bytes, mut lines) = (vec![0; MOST_BYTES], vec![0; MOST]);
    let register: &mut RegisterBytes = bytes.as_mut_slice().try_into().expect("the room has the length of a register");
    let rows: &mut RowLines = lines.as_mut_slice().try_into().expect("the room has the length of a register's rows");
    // SAFETY: the pointer and the length are one slice, and what is lent has its length and is lent to nobody else.
    let recorded = unsafe { declared::degvuurel_record(text.as_ptr(), text.len(), register, rows) };
    if let Some(fault) = Fault::given(recorded.fault) {
        return Err(Misread { fault, line: (recorded.line != 0).then_some(recorded.line) });
    }
    bytes.truncate(HEADER + ENTRY * recorded.count);
    lines.truncate(recorded.count);
    Ok(Plan { bytes, lines })
}
