//! What the crossing shows.

use crate::answer::NoSuchNumber;
use crate::structs::Outputs;
use std::fmt;

/// What the crossing shows: document 01, "From islands to aspect".
#[derive(Clone, Copy, Debug, PartialEq, Eq, Hash)]
#[repr(u8)]
pub enum Aspect {
    /// 0: green.
    Permitted = 0,
    /// 1: a train is coming; who is on the crossing clears it.
    Clearing = 1,
    /// 2: red.
    Forbidden = 2,
    /// 3: red, with the board OTRO TREN.
    GreatestRisk = 3,
    /// 4: orange, trains in the surroundings.
    Surroundings = 4,
    /// 5: dark.
    OutOfService = 5,
}

impl Aspect {
    /// Every aspect, in the order of its number.
    pub const ALL: [Aspect; 6] =
        [Aspect::Permitted, Aspect::Clearing, Aspect::Forbidden, Aspect::GreatestRisk, Aspect::Surroundings, Aspect::OutOfService];

    /// The aspect with this number, if there is one.
    #[must_use]
    pub fn of(number: u8) -> Option<Aspect> {
        Aspect::ALL.get(usize::from(number)).copied()
    }

    /// Document 01's number.
    #[must_use]
    pub fn number(self) -> u8 {
        self as u8
    }

    /// Its nine outputs.
    ///
    /// ```
    /// use degvuurel::{Aspect, Outputs};
    ///
    /// assert_eq!(Aspect::Clearing.outputs(), Outputs::VI | Outputs::S1);
    /// assert_eq!(Aspect::Clearing.outputs().to_string(), "010001000");
    /// ```
    #[must_use]
    pub fn outputs(self) -> Outputs {
        Outputs::of_aspect(self.number())
    }

    /// The aspect that the library gave. It is proved to give none above 5.
    pub(crate) fn given(number: u8) -> Aspect {
        Aspect::of(number).expect("the library gives aspects 0 to 5")
    }
}

impl TryFrom<u8> for Aspect {
    type Error = NoSuchNumber;

    fn try_from(number: u8) -> Result<Aspect, NoSuchNumber> {
        Aspect::of(number).ok_or(NoSuchNumber(number))
    }
}

impl From<Aspect> for u8 {
    fn from(aspect: Aspect) -> u8 {
        aspect.number()
    }
}

impl fmt::Display for Aspect {
    fn fmt(&self, f: &mut fmt::Formatter<'_>) -> fmt::Result {
        f.pad(match self {
            Aspect::Permitted => "permitted",
            Aspect::Clearing => "clearing",
            Aspect::Forbidden => "forbidden",
            Aspect::GreatestRisk => "greatest risk",
            Aspect::Surroundings => "trains in the surroundings",
            Aspect::OutOfService => "out of service",
        })
    }
}
