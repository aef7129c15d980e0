//! The rows of a register, by name.

use crate::answer::{Answer, Refusal};
use crate::aspect::Aspect;
use crate::register::Register;
use crate::report::report_in;
use crate::structs::{Report, ENTRY, HEADER};

/// An entry of a register that was replayed: the report, how it was answered, and the aspect after it.
///
/// ```
/// use degvuurel::{Answer, Aspect, Recorder, Report, Settings};
///
/// # fn main() -> Result<(), degvuurel::Refusal> {
/// let mut recorder = Recorder::start(Settings { tracks: 1, t1: 300, t2: 300, t3: 300, t4: 0, t5: 600 })?;
/// recorder.append(Report::normalise()).done()?;
/// let entry = recorder.register().entry(1)?;
/// assert_eq!((entry.report, entry.answer, entry.aspect), (Report::normalise(), Answer::Done, Aspect::Permitted));
/// # Ok(())
/// # }
/// ```
#[derive(Clone, Copy, Debug, PartialEq, Eq, Hash)]
pub struct Entry {
    /// The report.
    pub report: Report,
    /// What it was answered with, 0 to 7.
    pub answer: Answer,
    /// The aspect after it.
    pub aspect: Aspect,
}

impl Entry {
    /// Eight bytes that the replay has given back, so that they hold an answer and an aspect.
    fn replayed(bytes: &[u8]) -> Entry {
        Entry { report: report_in(bytes), answer: Answer::given(bytes[6]), aspect: Aspect::given(bytes[7]) }
    }

    /// The entries of a register that was replayed.
    pub(crate) fn all(bytes: &[u8]) -> impl DoubleEndedIterator<Item = Entry> + ExactSizeIterator + '_ {
        bytes[HEADER..].chunks_exact(ENTRY).map(Entry::replayed)
    }
}

impl<'a> Register<'a> {
    /// A row's entry, row 1 the first. The rows up to it are replayed, so that what it says is so; for all rows, see
    /// [`Register::entries`].
    ///
    /// # Errors
    ///
    /// As stepping to the row is refused; 14 for row 0, which has no entry.
    pub fn entry(self, row: usize) -> Result<Entry, Refusal> {
        let bytes = self.entry_bytes(row)?;
        self.step(row).map(|_| Entry::replayed(bytes))
    }

    /// Every row's entry, row 1 first. The register is replayed once.
    ///
    /// # Errors
    ///
    /// As reading is refused.
    pub fn entries(self) -> Result<impl DoubleEndedIterator<Item = Entry> + ExactSizeIterator + 'a, Refusal> {
        self.read().map(|_| Entry::all(self.bytes()))
    }
}
