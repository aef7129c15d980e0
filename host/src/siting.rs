//! How far from the crossing the detectors stand: document 01, "Siting", with request 5 of document 02.

use crate::answer::{Answer, Refusal};
use crate::declared;
use crate::structs::{Decimetres, Seconds};
use std::fmt;

// Both are shown as numbers are, at the right of a width, and never cut: as a text `1291.7 m` would be `1` by `{:.1}`.

impl fmt::Display for Seconds {
    fn fmt(&self, f: &mut fmt::Formatter<'_>) -> fmt::Result {
        f.pad_integral(true, "", &format!("{} s", self.0))
    }
}

/// In metres with one decimal.
///
/// ```
/// use degvuurel::Decimetres;
///
/// assert_eq!([0, 6, 15500, 87500].map(|number| Decimetres::of(number).to_string()), ["0.0 m", "0.6 m", "1550.0 m", "8750.0 m"]);
/// ```
impl fmt::Display for Decimetres {
    fn fmt(&self, f: &mut fmt::Formatter<'_>) -> fmt::Result {
        f.pad_integral(true, "", &format!("{}.{} m", self.0 / 10, self.0 % 10))
    }
}

impl Decimetres {
    /// So many decimetres.
    #[must_use]
    pub const fn of(number: u32) -> Decimetres {
        Decimetres(number)
    }

    /// How many decimetres they are. Whole metres that are not too near are `number().div_ceil(10)`.
    #[must_use]
    pub const fn number(self) -> u32 {
        self.0
    }
}

fn found(sited: declared::Sited) -> Result<Decimetres, Refusal> {
    Answer::given(sited.answer).done().map(|()| sited.distance)
}

/// The advance distance, for a speed of 1 to 350 km/h and a message time of 0 to 60 s.
///
/// ```
/// use degvuurel::{advance, Decimetres, Seconds};
///
/// let distance = advance(155, Seconds(0)).unwrap();
/// assert_eq!(distance, Decimetres::of(12917));
/// assert_eq!(distance.to_string(), "1291.7 m");
/// assert_eq!(advance(155, Seconds(61)).unwrap_err().number(), 8);
/// ```
///
/// # Errors
///
/// 8 outside these limits.
pub fn advance(speed: u16, message: Seconds) -> Result<Decimetres, Refusal> {
    // SAFETY: any numbers are taken.
    found(unsafe { declared::degvuurel_advance(speed, message) })
}

/// The warning distance, for a speed of 1 to 350 km/h and 1 to 4 tracks to cross.
///
/// ```
/// use degvuurel::{warning, Decimetres};
///
/// assert_eq!(warning(126, 1), Ok(Decimetres::of(2450)));
/// ```
///
/// # Errors
///
/// 8 outside these limits.
pub fn warning(speed: u16, tracks: u8) -> Result<Decimetres, Refusal> {
    // SAFETY: any numbers are taken.
    found(unsafe { declared::degvuurel_warning(speed, tracks) })
}
