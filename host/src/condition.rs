//! What has failed of a head, by name.

use crate::named::{named, named_bits};
use crate::structs::Condition;
use std::fmt;

named_bits!(Condition);

impl Condition {
    /// Nothing has failed.
    pub const NONE: Condition = Condition(0);
    /// The green lamp has failed.
    pub const GREEN_FAILED: Condition = Condition(1 << 0);
    /// The orange lamp has failed.
    pub const ORANGE_FAILED: Condition = Condition(1 << 1);
    /// The red lamp has failed.
    pub const RED_FAILED: Condition = Condition(1 << 2);
    /// The board OTRO TREN has failed.
    pub const BOARD_FAILED: Condition = Condition(1 << 3);
    /// Sounder S1 has failed.
    pub const S1_FAILED: Condition = Condition(1 << 4);
    /// Sounder S2 has failed.
    pub const S2_FAILED: Condition = Condition(1 << 5);
    /// Sounder S3 has failed.
    pub const S3_FAILED: Condition = Condition(1 << 6);
    /// Sounder S4 has failed.
    pub const S4_FAILED: Condition = Condition(1 << 7);
    /// The power has failed.
    pub const POWER_FAILED: Condition = Condition(1 << 8);
    /// The communication has failed.
    pub const COMMUNICATION_FAILED: Condition = Condition(1 << 9);
    /// Everything has failed: the greatest condition that is taken.
    pub const EVERY_PART_FAILED: Condition = Condition(1023);

    /// Each of the ten, bit 0 first.
    pub const ALL: [Condition; 10] = [
        Condition::GREEN_FAILED,
        Condition::ORANGE_FAILED,
        Condition::RED_FAILED,
        Condition::BOARD_FAILED,
        Condition::S1_FAILED,
        Condition::S2_FAILED,
        Condition::S3_FAILED,
        Condition::S4_FAILED,
        Condition::POWER_FAILED,
        Condition::COMMUNICATION_FAILED,
    ];

    /// The condition of these bits. Those from bit 10 up are read by no head, and a report with one of them is refused by 2.
    #[must_use]
    pub const fn of(bits: u16) -> Condition {
        Condition(bits)
    }

    /// The names of the failed parts, bit 0 first. A bit from 10 up has none.
    pub fn names(self) -> impl Iterator<Item = &'static str> {
        named(self.0, &["green", "orange", "red", "board", "S1", "S2", "S3", "S4", "power", "communication"])
    }
}

/// One number, as a planner types it.
impl fmt::Display for Condition {
    fn fmt(&self, f: &mut fmt::Formatter<'_>) -> fmt::Result {
        self.0.fmt(f)
    }
}
