//! A reader that holds a lent register and a place in it.

use crate::answer::Refusal;
use crate::declared;
use crate::entry::Entry;
use crate::register::{read_or_refused, Register};
use crate::structs::Station;

/// A browser: a register and the row that it stands on. A move answers as stepping does, and a refused one keeps its place. Each
/// move and each look replays the rows up to the one that it shows, so that what came later changes nothing.
///
/// ```
/// use degvuurel::{Aspect, IslandNumber, Recorder, Report, Settings, TrackNumber};
///
/// # fn main() -> Result<(), degvuurel::Refusal> {
/// let mut recorder = Recorder::start(Settings { tracks: 1, t1: 300, t2: 300, t3: 300, t4: 0, t5: 600 })?;
/// recorder.append(Report::normalise()).done()?;
/// recorder.append(Report::occupied(TrackNumber(0), IslandNumber::CROSSING)).done()?;
///
/// let mut browser = recorder.register().browse();
/// assert_eq!(browser.forward()?.aspect(), Aspect::Permitted);
/// assert_eq!(browser.to_row(2)?.aspect(), Aspect::Forbidden);
/// assert_eq!(browser.forward().unwrap_err().number(), 14);
/// assert_eq!(browser.row(), 2);
/// assert_eq!(browser.back()?.aspect(), Aspect::Permitted);
/// # Ok(())
/// # }
/// ```
#[derive(Clone, Debug, PartialEq, Eq)]
pub struct Browser<'a> {
    register: Register<'a>,
    row: usize,
}

impl<'a> Browser<'a> {
    /// The register that it holds.
    #[must_use]
    pub fn register(&self) -> Register<'a> {
        self.register
    }

    /// The row that it stands on.
    #[must_use]
    pub fn row(&self) -> usize {
        self.row
    }

    /// The station as it was after the row that it stands on.
    ///
    /// # Errors
    ///
    /// As [`Register::step`].
    pub fn station(&self) -> Result<Station, Refusal> {
        self.register.step(self.row)
    }

    /// The entry of the row that it stands on; row 0 has none.
    ///
    /// # Errors
    ///
    /// As [`Register::entry`].
    pub fn entry(&self) -> Result<Entry, Refusal> {
        self.register.entry(self.row)
    }

    /// Moves to a row.
    ///
    /// # Errors
    ///
    /// As [`Register::step`]; it stays where it stood.
    pub fn to_row(&mut self, row: usize) -> Result<Station, Refusal> {
        let bytes = self.register.bytes();
        // SAFETY: the pointer and the length are one slice.
        self.moved(unsafe { declared::degvuurel_browse(bytes.as_ptr(), bytes.len(), row) })
    }

    /// One row forward.
    ///
    /// # Errors
    ///
    /// As [`Register::step`], 14 from the last row; it stays where it stood.
    pub fn forward(&mut self) -> Result<Station, Refusal> {
        let bytes = self.register.bytes();
        // SAFETY: the pointer and the length are one slice.
        self.moved(unsafe { declared::degvuurel_forward(bytes.as_ptr(), bytes.len(), self.row) })
    }

    /// One row back.
    ///
    /// # Errors
    ///
    /// As [`Register::step`], 14 from row 0; it stays where it stood.
    pub fn back(&mut self) -> Result<Station, Refusal> {
        let bytes = self.register.bytes();
        // SAFETY: the pointer and the length are one slice.
        self.moved(unsafe { declared::degvuurel_back(bytes.as_ptr(), bytes.len(), self.row) })
    }

    /// A step's count is its row; a refused move keeps its place.
    fn moved(&mut self, reading: declared::Reading) -> Result<Station, Refusal> {
        let shown = read_or_refused(reading)?;
        self.row = shown.count;
        Ok(shown.station)
    }
}

impl<'a> Register<'a> {
    /// A browser of it, at row 0. Whether these bytes are a register, each move and each look answers.
    #[must_use]
    pub fn browse(self) -> Browser<'a> {
        Browser { register: self, row: 0 }
    }
}
