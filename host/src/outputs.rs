//! The nine outputs by name.

use crate::declared;
use crate::named::{named, named_bits};
use crate::structs::{Condition, Outputs};
use std::fmt;

named_bits!(Outputs);

impl Outputs {
    /// No lamp and no sounder.
    pub const NONE: Outputs = Outputs(0);
    /// *Verde fijo*: green, steady.
    pub const VF: Outputs = Outputs(1 << 0);
    /// *Verde intermitente*: green, flashing.
    pub const VI: Outputs = Outputs(1 << 1);
    /// *Naranja intermitente*: orange, flashing.
    pub const NI: Outputs = Outputs(1 << 2);
    /// *Rojo fijo*: red, steady.
    pub const RF: Outputs = Outputs(1 << 3);
    /// R+: the board OTRO TREN.
    pub const R_PLUS: Outputs = Outputs(1 << 4);
    /// The sounder of VI.
    pub const S1: Outputs = Outputs(1 << 5);
    /// The sounder of RF.
    pub const S2: Outputs = Outputs(1 << 6);
    /// The sounder of R+.
    pub const S3: Outputs = Outputs(1 << 7);
    /// The sounder of NI.
    pub const S4: Outputs = Outputs(1 << 8);

    /// Each of the nine, VF first.
    pub const ALL: [Outputs; 9] =
        [Outputs::VF, Outputs::VI, Outputs::NI, Outputs::RF, Outputs::R_PLUS, Outputs::S1, Outputs::S2, Outputs::S3, Outputs::S4];

    /// The nine outputs of an aspect's number, as an entry of a register holds it; a number above 5 has none.
    ///
    /// ```
    /// use degvuurel::Outputs;
    ///
    /// assert_eq!(Outputs::of_aspect(4), Outputs::NI | Outputs::S4);
    /// assert_eq!(Outputs::of_aspect(6), Outputs::NONE);
    /// ```
    #[must_use]
    pub fn of_aspect(number: u8) -> Outputs {
        // SAFETY: any number is taken.
        Outputs(unsafe { declared::degvuurel_outputs(number) })
    }

    /// The outputs of these bits; those from bit 9 up are no outputs, and no head shows them.
    #[must_use]
    pub const fn of(bits: u16) -> Outputs {
        Outputs(bits)
    }

    /// Their names, VF first, as document 000 has them. A bit that is no output has none.
    pub fn names(self) -> impl Iterator<Item = &'static str> {
        named(self.0, &["VF", "VI", "NI", "RF", "R+", "S1", "S2", "S3", "S4"])
    }

    /// What a head in this condition still shows of them: document 01, "The heads".
    #[must_use]
    pub fn through(self, condition: Condition) -> Outputs {
        // SAFETY: any numbers are taken.
        Outputs(unsafe { declared::degvuurel_head(self.0, condition.0) })
    }
}

impl fmt::Display for Outputs {
    fn fmt(&self, f: &mut fmt::Formatter<'_>) -> fmt::Result {
        let digits: String = (0..9).map(|bit| if self.0 >> bit & 1 == 1 { '1' } else { '0' }).collect();
        f.pad(&digits)
    }
}
