//! The numbers that the library answers, under names.

use std::error::Error;
use std::fmt;

/// What a report, a setting or a register is answered with: document 01, "The numbers it answers", and document 02.
///
/// ```
/// use degvuurel::Answer;
///
/// assert_eq!(Answer::AlreadySo.number(), 6);
/// assert_eq!(Answer::try_from(6), Ok(Answer::AlreadySo));
/// assert_eq!(Answer::AlreadySo.to_string(), "occupied, free, failed or not failed already");
/// assert_eq!(Answer::AlreadySo.done().unwrap_err().to_string(), "refused 6: occupied, free, failed or not failed already");
/// ```
#[must_use = "the answer says whether something was refused"]
#[derive(Clone, Copy, Debug, PartialEq, Eq, Hash, PartialOrd, Ord)]
#[repr(u8)]
pub enum Answer {
    /// 0: done.
    Done = 0,
    /// 1: the kind is not 1 to 7.
    NoSuchKind = 1,
    /// 2: spare not 0, a field shown as 0 is not, clock value 0, condition above 1023.
    BadField = 2,
    /// 3: no such track.
    NoSuchTrack = 3,
    /// 4: island above 4.
    NoSuchIsland = 4,
    /// 5: head above 1.
    NoSuchHead = 5,
    /// 6: occupied, free, failed or not failed already.
    AlreadySo = 6,
    /// 7: normalise with an island occupied or a detector failed.
    NotClear = 7,
    /// 8: a setting or a siting number outside its limits; in appending, header settings not the station's.
    OutsideLimits = 8,
    /// 9: a register shorter than 16 bytes, or with a wrong mark.
    NotARegister = 9,
    /// 10: a version other than 1.
    OtherVersion = 10,
    /// 11: the length less 16 is no multiple of 8.
    CutEntry = 11,
    /// 12: no room, or more than 8,190 entries.
    NoRoom = 12,
    /// 13: an entry's answer or aspect is not what the replay gives.
    NotReplayed = 13,
    /// 14: a row above the count, or row 0 handed back.
    NoSuchRow = 14,
    /// 15: not RFC 8259 text, too long or too deep.
    NotJson = 15,
    /// 16: a member of a message missing, of another form or outside its range.
    BadMember = 16,
}

impl Answer {
    /// Every answer, in the order of its number.
    pub const ALL: [Answer; 17] = [
        Answer::Done,
        Answer::NoSuchKind,
        Answer::BadField,
        Answer::NoSuchTrack,
        Answer::NoSuchIsland,
        Answer::NoSuchHead,
        Answer::AlreadySo,
        Answer::NotClear,
        Answer::OutsideLimits,
        Answer::NotARegister,
        Answer::OtherVersion,
        Answer::CutEntry,
        Answer::NoRoom,
        Answer::NotReplayed,
        Answer::NoSuchRow,
        Answer::NotJson,
        Answer::BadMember,
    ];

    /// The answer with this number, if there is one.
    #[must_use]
    pub fn of(number: u8) -> Option<Answer> {
        Answer::ALL.get(usize::from(number)).copied()
    }

    /// The documents' number.
    #[must_use]
    pub fn number(self) -> u8 {
        self as u8
    }

    /// The answer that the library gave. It is proved to give none above 16.
    pub(crate) fn given(number: u8) -> Answer {
        Answer::of(number).expect("the library answers 0 to 16")
    }

    /// Whether a report that is so answered has its row in a register: 0 to 7.
    #[must_use]
    pub fn is_entered(self) -> bool {
        self <= Answer::NotClear
    }

    /// Nothing where it is [`Answer::Done`], else the refusal: for whoever takes a refused report for an error.
    ///
    /// # Errors
    ///
    /// Every answer but 0.
    pub fn done(self) -> Result<(), Refusal> {
        match self {
            Answer::Done => Ok(()),
            answer => Err(Refusal { answer, entry: 0 }),
        }
    }
}

/// A number that is no answer, aspect or fault.
#[derive(Clone, Copy, Debug, PartialEq, Eq, Hash)]
pub struct NoSuchNumber(pub u8);

impl fmt::Display for NoSuchNumber {
    fn fmt(&self, f: &mut fmt::Formatter<'_>) -> fmt::Result {
        f.pad(&format!("{} is no number that the library gives", self.0))
    }
}

impl Error for NoSuchNumber {}

impl TryFrom<u8> for Answer {
    type Error = NoSuchNumber;

    fn try_from(number: u8) -> Result<Answer, NoSuchNumber> {
        Answer::of(number).ok_or(NoSuchNumber(number))
    }
}

impl From<Answer> for u8 {
    fn from(answer: Answer) -> u8 {
        answer.number()
    }
}

impl fmt::Display for Answer {
    fn fmt(&self, f: &mut fmt::Formatter<'_>) -> fmt::Result {
        f.pad(match self {
            Answer::Done => "done",
            Answer::NoSuchKind => "no such kind of report",
            Answer::BadField => "a field of the report is not as its kind has it",
            Answer::NoSuchTrack => "no such track",
            Answer::NoSuchIsland => "no such island",
            Answer::NoSuchHead => "no such head",
            Answer::AlreadySo => "occupied, free, failed or not failed already",
            Answer::NotClear => "an island is occupied or a detector failed",
            Answer::OutsideLimits => {
                "a setting or siting number is outside its limits, or the header's settings are not the station's"
            }
            Answer::NotARegister => "not a register",
            Answer::OtherVersion => "a register of another version",
            Answer::CutEntry => "the last entry is cut",
            Answer::NoRoom => "no room, or too many entries",
            Answer::NotReplayed => "the entry's answer or aspect is not what the replay gives",
            Answer::NoSuchRow => "no such row",
            Answer::NotJson => "not RFC 8259 text, too long or too deep",
            Answer::BadMember => "a member of the message is missing, of another form or outside its range",
        })
    }
}

/// A refusal: an answer other than [`Answer::Done`], and for 13 the entry that it names.
///
/// ```
/// use degvuurel::{Register, Answer};
///
/// let refusal = Register::new(b"no register").read().unwrap_err();
/// assert_eq!(refusal.answer(), Answer::NotARegister);
/// assert_eq!(refusal.to_string(), "refused 9: not a register");
/// ```
#[derive(Clone, Copy, Debug, PartialEq, Eq, Hash)]
pub struct Refusal {
    answer: Answer,
    entry: usize,
}

impl Refusal {
    /// A refused read or step, with the entry that it names or 0.
    pub(crate) fn naming(answer: Answer, entry: usize) -> Refusal {
        Refusal { answer, entry }
    }

    /// The answer, which is not [`Answer::Done`].
    pub fn answer(self) -> Answer {
        self.answer
    }

    /// The documents' number, 1 to 16.
    #[must_use]
    pub fn number(self) -> u8 {
        self.answer.number()
    }

    /// The first entry, counted from 1, that is not what the replay gives. None but 13 names one.
    #[must_use]
    pub fn entry(self) -> Option<usize> {
        (self.entry != 0).then_some(self.entry)
    }
}

impl fmt::Display for Refusal {
    fn fmt(&self, f: &mut fmt::Formatter<'_>) -> fmt::Result {
        let at = self.entry().map_or(String::new(), |entry| format!(" at {entry}"));
        f.pad(&format!("refused {}{at}: {}", self.number(), self.answer))
    }
}

impl Error for Refusal {}
