//! Reading a register: document 01, "The register".

use crate::answer::{Answer, Refusal};
use crate::declared;
use crate::structs::{Settings, Station};

/// A register in lent bytes: exactly the filled ones. Any bytes can be looked at as one; whether they are, each function answers.
/// Nothing is kept between calls, so a row shown is that row, whatever was shown before; and whatever shows a row replays the
/// rows up to it.
#[derive(Clone, Copy, Debug, PartialEq, Eq)]
pub struct Register<'a> {
    bytes: &'a [u8],
}

/// What reading returns: how many entries there are, and the station after them.
#[derive(Clone, Copy, Debug, PartialEq, Eq)]
pub struct Reading {
    /// The number of entries read.
    pub count: usize,
    /// The station after them.
    pub station: Station,
}

/// What the library returned, or the refusal with the entry that it names.
pub(crate) fn read_or_refused(reading: declared::Reading) -> Result<Reading, Refusal> {
    match Answer::given(reading.answer) {
        Answer::Done => Ok(Reading { count: reading.count, station: reading.station }),
        answer => Err(Refusal::naming(answer, reading.entry)),
    }
}

impl<'a> Register<'a> {
    /// These bytes, looked at as a register.
    #[must_use]
    pub fn new(bytes: &'a [u8]) -> Register<'a> {
        Register { bytes }
    }

    /// The lent bytes.
    #[must_use]
    pub fn bytes(self) -> &'a [u8] {
        self.bytes
    }

    /// What stands in the header as settings, whatever these bytes are: neither its mark nor a limit is looked at. Bytes that are
    /// missing count as 0. Of a register that was read they are the station's.
    #[must_use]
    pub fn settings(self) -> Settings {
        // SAFETY: the pointer and the length are one slice.
        unsafe { declared::degvuurel_settings_in(self.bytes.as_ptr(), self.bytes.len()) }
    }

    /// Replays the whole register.
    ///
    /// # Errors
    ///
    /// 8 to 13, as it is refused; 13 names the first entry that is not what the replay gives.
    pub fn read(self) -> Result<Reading, Refusal> {
        // SAFETY: the pointer and the length are one slice.
        read_or_refused(unsafe { declared::degvuurel_read(self.bytes.as_ptr(), self.bytes.len()) })
    }

    /// The station as it was after a row, from the entries up to it alone. Row 0 is the fresh station, row 1 the first entry.
    ///
    /// # Errors
    ///
    /// 8 to 13, as these entries are refused; 14 where there is no such row.
    pub fn step(self, row: usize) -> Result<Station, Refusal> {
        // SAFETY: the pointer and the length are one slice.
        let reading = unsafe { declared::degvuurel_step(self.bytes.as_ptr(), self.bytes.len(), row) };
        read_or_refused(reading).map(|reading| reading.station)
    }

    /// What handing back a row is answered with: done where it has an entry.
    pub fn entry_answer(self, row: usize) -> Answer {
        // SAFETY: the pointer and the length are one slice.
        Answer::given(unsafe { declared::degvuurel_entry_answer(self.bytes.as_ptr(), self.bytes.len(), row) })
    }

    /// The eight bytes of a row's entry, where they lie in the lent register; they are not replayed.
    ///
    /// ```
    /// use degvuurel::{Recorder, Report, Settings};
    ///
    /// # fn main() -> Result<(), degvuurel::Refusal> {
    /// let mut recorder = Recorder::start(Settings { tracks: 1, t1: 1, t2: 1, t3: 1, t4: 0, t5: 2 })?;
    /// recorder.append(Report::normalise()).done()?;
    /// assert_eq!(recorder.register().entry_bytes(1)?, [7, 0, 0, 0, 0, 0, 0, 0]);
    /// assert_eq!(recorder.register().entry_bytes(0).unwrap_err().number(), 14);
    /// # Ok(())
    /// # }
    /// ```
    ///
    /// # Errors
    ///
    /// 8 to 12 where it is no register; 14 where there is no such row, and for row 0.
    pub fn entry_bytes(self, row: usize) -> Result<&'a [u8], Refusal> {
        // SAFETY: the pointer and the length are one slice.
        let entry = unsafe { declared::degvuurel_entry(self.bytes.as_ptr(), self.bytes.len(), row) };
        Answer::given(entry.answer).done().map(|()| &self.bytes[entry.at..entry.at + entry.length])
    }
}
