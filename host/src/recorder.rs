//! Filling a register: document 01, "The register".

use crate::answer::{Answer, Refusal};
use crate::declared;
use crate::entry::Entry;
use crate::register::Register;
use crate::structs::{Report, Settings, Station, ENTRY, HEADER};

/// Writes the header of these settings at the start of lent bytes, and touches no other byte.
///
/// # Errors
///
/// 8 where the settings are outside their limits, 12 where there is no room. Then nothing is written.
pub fn start(bytes: &mut [u8], settings: Settings) -> Result<(), Refusal> {
    // SAFETY: the pointer and the length are one slice, which nobody else has.
    Answer::given(unsafe { declared::degvuurel_start(bytes.as_mut_ptr(), bytes.len(), settings) }).done()
}

/// Takes a report and enters it in lent bytes at entry k, counted from 0. It is entered where the answer is 0, and where it is 1
/// to 7 with the station as it was. 9 or 10 is answered where the bytes begin with no header, 8 where its settings are not the
/// station's, and 12 where there is no room for the entry; then nothing is taken or written.
///
/// No earlier entry is read: k is the number of entries so far, and the station the one after them. A [`Recorder`] keeps both.
pub fn append(bytes: &mut [u8], k: usize, station: &mut Station, report: Report) -> Answer {
    // SAFETY: the pointer and the length are one slice, which nobody else has.
    let taken = unsafe { declared::degvuurel_append(bytes.as_mut_ptr(), bytes.len(), k, *station, report) };
    *station = taken.station;
    Answer::given(taken.answer)
}

/// A register that is being filled. It holds its bytes, and the station after the last entry.
///
/// ```
/// use degvuurel::{Answer, Aspect, IslandNumber, Recorder, Report, Settings, TrackNumber};
///
/// # fn main() -> Result<(), degvuurel::Refusal> {
/// let crossing = Report::occupied(TrackNumber(0), IslandNumber::CROSSING);
/// let mut recorder = Recorder::start(Settings { tracks: 1, t1: 300, t2: 300, t3: 300, t4: 0, t5: 600 })?;
/// recorder.append(Report::normalise()).done()?; // for whoever takes a refused report for an error
/// assert_eq!(recorder.append(crossing), Answer::Done);
/// assert_eq!(recorder.append(crossing), Answer::AlreadySo); // refused, and entered all the same
/// assert_eq!((recorder.count(), recorder.station().aspect()), (3, Aspect::Forbidden));
///
/// let undone = recorder.undo_to(1)?;
/// assert_eq!(undone, [crossing, crossing]);
/// assert_eq!((recorder.count(), recorder.station().aspect()), (1, Aspect::Permitted));
/// assert_eq!(recorder.into_bytes().len(), 24); // a header, and one entry
/// # Ok(())
/// # }
/// ```
#[derive(Clone, Debug, PartialEq, Eq)]
pub struct Recorder {
    /// Exactly the filled bytes.
    bytes: Vec<u8>,
    station: Station,
}

impl Recorder {
    /// Starts a register of these settings.
    ///
    /// # Errors
    ///
    /// 8 where they are outside their limits.
    pub fn start(settings: Settings) -> Result<Recorder, Refusal> {
        let mut bytes = vec![0; HEADER];
        start(&mut bytes, settings)?;
        Ok(Recorder { bytes, station: Station::make(settings)? })
    }

    /// Goes on with a register: exactly its filled bytes. It is read first.
    ///
    /// ```
    /// # use degvuurel::{Recorder, Report, Settings};
    /// # fn main() -> Result<(), degvuurel::Refusal> {
    /// # let mut recorder = Recorder::start(Settings { tracks: 1, t1: 300, t2: 300, t3: 300, t4: 0, t5: 600 })?;
    /// # recorder.append(Report::normalise()).done()?;
    /// let saved = recorder.into_bytes();
    /// let mut recorder = Recorder::resume(saved)?;
    /// recorder.append(Report::clock(50)).done()?;
    /// assert_eq!(recorder.count(), 2);
    /// # Ok(())
    /// # }
    /// ```
    ///
    /// # Errors
    ///
    /// 8 to 13, as reading refuses it.
    pub fn resume(bytes: Vec<u8>) -> Result<Recorder, Refusal> {
        let station = Register::new(&bytes).read()?.station;
        Ok(Recorder { bytes, station })
    }

    /// Takes a report and enters it. Where it is refused by 1 to 7 the station stays as it was, and it is entered all the same.
    /// With 12 there are [`MOST`](crate::MOST) entries already, and nothing is taken or entered. The answer says which, and the
    /// compiler warns of whoever drops it:
    ///
    /// ```compile_fail
    /// #![deny(unused_must_use)]
    /// # use degvuurel::{Recorder, Report, Settings};
    /// # fn main() -> Result<(), degvuurel::Refusal> {
    /// # let mut recorder = Recorder::start(Settings { tracks: 1, t1: 300, t2: 300, t3: 300, t4: 0, t5: 600 })?;
    /// recorder.append(Report::clock(0));
    /// # Ok(())
    /// # }
    /// ```
    pub fn append(&mut self, report: Report) -> Answer {
        let (filled, count) = (self.bytes.len(), self.count());
        self.bytes.resize(filled + ENTRY, 0);
        let answer = append(&mut self.bytes, count, &mut self.station, report);
        if !answer.is_entered() {
            self.bytes.truncate(filled);
        }
        answer
    }

    /// Goes back to a row: the rows after it are gone, and the station is as it was after that row. Row 0 is before the first
    /// report. The reports that are gone come back, for a redo. The rows up to it are replayed.
    ///
    /// # Errors
    ///
    /// 14 where there is no such row. Then nothing is gone.
    pub fn undo_to(&mut self, row: usize) -> Result<Vec<Report>, Refusal> {
        self.station = self.register().step(row)?;
        let undone = self.entries().skip(row).map(|entry| entry.report).collect();
        self.bytes.truncate(HEADER + ENTRY * row);
        Ok(undone)
    }

    /// The number of entries.
    #[must_use]
    pub fn count(&self) -> usize {
        (self.bytes.len() - HEADER) / ENTRY
    }

    /// The station after the last entry.
    #[must_use]
    pub fn station(&self) -> &Station {
        &self.station
    }

    /// Every row's entry, row 1 first. Nothing is replayed: the register was filled here, or read.
    #[must_use]
    pub fn entries(&self) -> impl DoubleEndedIterator<Item = Entry> + ExactSizeIterator + '_ {
        Entry::all(&self.bytes)
    }

    /// A row's entry, row 1 the first. Nothing is replayed.
    #[must_use]
    pub fn entry(&self, row: usize) -> Option<Entry> {
        self.entries().nth(row.checked_sub(1)?)
    }

    /// The register as it is filled by now, to step back through, to browse, to print or to save.
    #[must_use]
    pub fn register(&self) -> Register<'_> {
        Register::new(&self.bytes)
    }

    /// Its bytes, to keep.
    #[must_use]
    pub fn into_bytes(self) -> Vec<u8> {
        self.bytes
    }
}
