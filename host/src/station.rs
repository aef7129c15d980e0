//! The station: the reports that it takes, and what it shows.

use crate::answer::{Answer, Refusal};
use crate::aspect::Aspect;
use crate::declared;
use crate::structs::{Outputs, Report, Settings, Station};

impl Station {
    /// A fresh station of these settings.
    ///
    /// # Errors
    ///
    /// 8 where they are outside their limits.
    pub fn make(settings: Settings) -> Result<Station, Refusal> {
        // SAFETY: any settings are taken.
        let made = unsafe { declared::degvuurel_make(settings) };
        Answer::given(made.answer).done().map(|()| made.station)
    }

    /// Takes a report, or refuses it and stays as it is. There is no register here, so that a refused report is an error; see
    /// [`Recorder::append`](crate::Recorder::append).
    ///
    /// # Errors
    ///
    /// 1 to 8, as the report is refused.
    pub fn take(&mut self, report: Report) -> Result<(), Refusal> {
        // SAFETY: any station and any report are taken.
        let taken = unsafe { declared::degvuurel_take(*self, report) };
        *self = taken.station;
        Answer::given(taken.answer).done()
    }

    /// What a report would be answered with.
    pub fn answer(&self, report: Report) -> Answer {
        // SAFETY: any station and any report are taken.
        Answer::given(unsafe { declared::degvuurel_answer(*self, report) })
    }

    /// The aspect.
    #[must_use]
    pub fn aspect(&self) -> Aspect {
        // SAFETY: any station is taken.
        Aspect::given(unsafe { declared::degvuurel_aspect(*self) })
    }

    /// What each head shows.
    #[must_use]
    pub fn heads(&self) -> [Outputs; 2] {
        // SAFETY: any station is taken.
        unsafe { declared::degvuurel_heads(*self) }.outputs.map(Outputs)
    }

    /// The five zone digits in island order: 0 where any track occupies it, else 1.
    #[must_use]
    pub fn zones(&self) -> [u8; 5] {
        // SAFETY: any station is taken.
        unsafe { declared::degvuurel_zones(*self) }.digits
    }

    /// Which tracks count for the greatest risk.
    #[must_use]
    pub fn presence(&self) -> [bool; 4] {
        // SAFETY: any station is taken.
        unsafe { declared::degvuurel_presence(*self) }.tracks
    }
}
